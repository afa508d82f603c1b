# shellcheck shell=bash
# Completes the arguments of ipld in bash. Made by .ci/manual of its help. Do not edit it.

# Sets what a command has: the commands below it, its options, those with a value, and whether it
# has arguments.
_ipld_has() {
    commands='' options='' valued='' files=''
    case $1 in
    'ipld')
        commands='show links check cid cat ls pack unpack car encode'
        options='-h --help -V --version'
        ;;
    'ipld show')
        options='-p --path --json --unchecked --limit --zero-padding -c --codec -h --help'
        valued='-p --path --limit -c --codec'
        files=yes
        ;;
    'ipld links')
        options='--json -c --codec -h --help'
        valued='-c --codec'
        files=yes
        ;;
    'ipld check')
        options='--canonical --json -c --codec -h --help'
        valued='-c --codec'
        files=yes
        ;;
    'ipld cid')
        options='-t --text -b --base --v0 --v1 --json -c --codec --unixfs --cid-version --raw-leaves --no-raw-leaves --chunk --width --preserve --hidden --ignore --symlinks -h --help'
        valued='-b --base -c --codec --cid-version --chunk --width --ignore --symlinks'
        files=yes
        ;;
    'ipld cat')
        options='--offset --length --max-size --hold --limit --zero-padding -h --help'
        valued='--offset --length --max-size --hold --limit'
        files=yes
        ;;
    'ipld ls')
        options='-l --long -R --recursive --json --hold --limit --zero-padding -h --help'
        valued='--hold --limit'
        files=yes
        ;;
    'ipld pack')
        options='-o --output -f --force --no-wrap --preserve --hidden --ignore --symlinks --cid-version --raw-leaves --no-raw-leaves --chunk --width -h --help'
        valued='-o --output --ignore --symlinks --cid-version --chunk --width'
        files=yes
        ;;
    'ipld unpack')
        options='-d --directory --symlinks --preserve --max-size --hold --limit --zero-padding -h --help'
        valued='-d --directory --symlinks --max-size --hold --limit'
        files=yes
        ;;
    'ipld car')
        commands='list inspect roots links graph missing verify extract filter index salvage create'
        options='-h --help'
        ;;
    'ipld car list')
        options='--json --limit --zero-padding --progress -h --help'
        valued='--limit'
        files=yes
        ;;
    'ipld car inspect')
        options='--json --limit --zero-padding --progress -h --help'
        valued='--limit'
        files=yes
        ;;
    'ipld car roots')
        options='--json --limit -h --help'
        valued='--limit'
        files=yes
        ;;
    'ipld car links')
        options='--limit --zero-padding --progress -h --help'
        valued='--limit'
        files=yes
        ;;
    'ipld car graph')
        options='--limit --zero-padding --progress -h --help'
        valued='--limit'
        files=yes
        ;;
    'ipld car missing')
        options='--by-cid --json --limit --zero-padding --progress -h --help'
        valued='--limit'
        files=yes
        ;;
    'ipld car verify')
        options='--known --json --limit --zero-padding --progress -h --help'
        valued='--limit'
        files=yes
        ;;
    'ipld car extract')
        options='--all -d --directory --force --limit --zero-padding --unchecked -h --help'
        valued='-d --directory --limit'
        files=yes
        ;;
    'ipld car filter')
        options='-o --output --force --version --unchecked --limit --zero-padding -h --help'
        valued='-o --output --version --limit'
        files=yes
        ;;
    'ipld car index')
        options='-o --output --force --limit --zero-padding -h --help'
        valued='-o --output --limit'
        files=yes
        ;;
    'ipld car salvage')
        options='-o --output --force --root --json --limit -h --help'
        valued='-o --output --root --limit'
        files=yes
        ;;
    'ipld car create')
        options='--files-from -o --output --force --root --version --v0 --unchecked --split --limit --zero-padding -c --codec -h --help'
        valued='--files-from -o --output --root --version --split --limit -c --codec'
        files=yes
        ;;
    'ipld encode')
        options='-o --output --force --canonical -c --codec -h --help'
        valued='-o --output -c --codec'
        files=yes
        ;;
    esac
}

_ipld() {
    local current=${COMP_WORDS[COMP_CWORD]} command=ipld option='' words='' word at
    local commands options valued files has_argument='' is_ended=''

    # Find the command, whether it has an argument, and the option whose value is completed.
    _ipld_has "$command"
    for ((at = 1; at < COMP_CWORD; at++)); do
        word=${COMP_WORDS[at]}
        if [[ $option ]]; then
            # The sign in --option=value is a word.
            [[ $word == '=' ]] || option=''
        elif [[ $word == -- && ! $is_ended ]]; then
            has_argument=yes is_ended=yes
        elif [[ $word == -?* && ! $is_ended ]]; then
            [[ " $valued " != *" $word "* ]] || option=$word
        elif [[ ! $has_argument && " $commands " == *" $word "* ]]; then
            command+=" $word"
            _ipld_has "$command"
        else
            has_argument=yes
        fi
    done

    if [[ $option ]]; then
        [[ $current != '=' ]] || current=''
        files=yes
        case "$command $option" in
        'ipld show -c' | 'ipld show --codec') words='dag-cbor dag-pb dag-json raw' files='' ;;
        'ipld links -c' | 'ipld links --codec') words='dag-cbor dag-pb dag-json raw' files='' ;;
        'ipld check -c' | 'ipld check --codec') words='dag-cbor dag-pb dag-json raw' files='' ;;
        'ipld cid -b' | 'ipld cid --base') words='base16 base32 base32upper base36 base58btc base64url' files='' ;;
        'ipld cid -c' | 'ipld cid --codec') words='dag-cbor dag-pb dag-json raw' files='' ;;
        'ipld cid --cid-version') words='0 1' files='' ;;
        'ipld cid --symlinks') words='keep follow' files='' ;;
        'ipld pack --symlinks') words='keep follow' files='' ;;
        'ipld pack --cid-version') words='0 1' files='' ;;
        'ipld unpack -d' | 'ipld unpack --directory') files=folders ;;
        'ipld unpack --symlinks') words='inside skip any' files='' ;;
        'ipld car extract -d' | 'ipld car extract --directory') files=folders ;;
        'ipld car filter --version') words='1 2' files='' ;;
        'ipld car create --version') words='1 2' files='' ;;
        'ipld car create -c' | 'ipld car create --codec') words='dag-cbor dag-pb dag-json raw' files='' ;;
        'ipld encode -c' | 'ipld encode --codec') words='dag-cbor dag-json raw' files='' ;;
        esac
    elif [[ $current == -* && ! $is_ended ]]; then
        words=$options files=''
    elif [[ ! $has_argument ]]; then
        words=$commands
    fi
    mapfile -t COMPREPLY < <(compgen -W "$words" -- "$current")
    # If no word fits, readline completes files, only folders, or nothing.
    case $files in
    yes) ;;
    folders) compopt +o bashdefault +o default -o dirnames 2> /dev/null ;;
    *) compopt +o bashdefault +o default 2> /dev/null ;;
    esac
}

complete -o bashdefault -o default -F _ipld ipld
