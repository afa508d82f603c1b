"""Makes completions for bash, zsh and fish from the help of a program."""

import re

from help_text import MAKER, first_sentence


def filled(text, parts):
    """
    Returns a text with its parts, such as @NAME@, filled in. A list takes the place of a line, and
    has its indentation.
    """
    lines = []
    for line in text.split("\n"):
        found = re.fullmatch(r"( *)@(\w+)@", line)
        if found and isinstance(parts[found[2]], list):
            lines += [found[1] + it for it in parts[found[2]]]
        else:
            lines.append(re.sub(r"@(\w+)@", lambda it: parts[it[1]], line))
    return "\n".join(lines)


def heading(program, shell):
    return f"# Completes the arguments of {program.name} in {shell}. Made by {MAKER} of its help. Do not edit it."


def function_name(command):
    return "_" + re.sub(r"\W", "_", "_".join(command.words))


def names_of(options):
    return " ".join(name for option in options for name in option.names)


def each_line(lines_of, program):
    """Returns the lines of the program and of all its commands."""
    return [line for command in program.all() for line in lines_of(command)]


BASH_TEXT = """\
# shellcheck shell=bash
@HEADING@

# Sets what a command has: the commands below it, its options, those with a value, and whether it
# has arguments.
@NAME@_has() {
    commands='' options='' valued='' files=''
    case $1 in
    @TABLE@
    esac
}

@NAME@() {
    local current=${COMP_WORDS[COMP_CWORD]} command=@PROGRAM@ option='' words='' word at
    local commands options valued files has_argument='' is_ended=''

    # Find the command, whether it has an argument, and the option whose value is completed.
    @NAME@_has "$command"
    for ((at = 1; at < COMP_CWORD; at++)); do
        word=${COMP_WORDS[at]}
        if [[ $option ]]; then
            # The sign in --option=value is a word.
            [[ $word == '=' ]] || option=''
        elif [[ $word == -- && ! $is_ended ]]; then
            has_argument=yes is_ended=yes
        elif [[ $word == -?* && ! $is_ended ]]; then
            [[ " $valued " != *" $word "* ]] || option=$word
        elif [[ ! $has_argument && " $commands " == *" $word "* ]]; then
            command+=" $word"
            @NAME@_has "$command"
        else
            has_argument=yes
        fi
    done

    if [[ $option ]]; then
        [[ $current != '=' ]] || current=''
        files=yes
        case "$command $option" in
        @VALUES@
        esac
    elif [[ $current == -* && ! $is_ended ]]; then
        words=$options files=''
    elif [[ ! $has_argument ]]; then
        words=$commands
    fi
    mapfile -t COMPREPLY < <(compgen -W "$words" -- "$current")
    # If no word fits, readline completes files, only folders, or nothing.
    case $files in
    yes) ;;
    folders) compopt +o bashdefault +o default -o dirnames 2> /dev/null ;;
    *) compopt +o bashdefault +o default 2> /dev/null ;;
    esac
}

complete -o bashdefault -o default -F @NAME@ @PROGRAM@
"""


def bash_has(command):
    """Yields the lines for what a command has."""
    yield f"'{command.path}')"
    if command.commands:
        yield f"    commands='{' '.join(it.name for it in command.commands)}'"
    yield f"    options='{names_of(command.options)}'"
    if command.valued:
        yield f"    valued='{names_of(command.valued)}'"
    if command.arguments:
        yield "    files=yes"
    yield "    ;;"


def bash_values(command):
    """Yields the lines for the options whose values aren't any files."""
    for option in command.valued:
        names = " | ".join(f"'{command.path} {it}'" for it in option.names)
        if option.choices:
            yield f"{names}) words='{' '.join(option.choices)}' files='' ;;"
        elif option.is_folder:
            yield f"{names}) files=folders ;;"


def bash(program):
    """Returns the completions for bash."""
    parts = {
        "HEADING": heading(program, "bash"),
        "NAME": function_name(program),
        "PROGRAM": program.name,
        "TABLE": each_line(bash_has, program),
        "VALUES": each_line(bash_values, program),
    }
    return filled(BASH_TEXT, parts)


ZSH_TEXT = """\
#compdef @PROGRAM@
@HEADING@

@FUNCTIONS@
if [[ $funcstack[1] == @NAME@ ]]; then
    @NAME@ "$@"
else
    compdef @NAME@ @PROGRAM@
fi
"""
ZSH_COMMAND = """\
@NAME@() {
    local -a given
    given=(
        @OPTIONS@
    )
    _arguments -s -S $given @ARGUMENTS@
}
"""
# For the state `arguments` the first word is the first argument.
ZSH_COMMANDS = """\
@NAME@() {
    local curcontext="$curcontext" state state_descr line ret=1
    local -A opt_args
    local -a given below
    given=(
        @OPTIONS@
    )
    below=(
        @BELOW@
    )
    _arguments -s -S -C $given '1: :->command' '*:: :->arguments' && ret=0
    case $state in
    command)
        _describe -t commands command below && ret=0
        @FILES@
        ;;
    arguments)
        case $words[1] in
        @CASES@
        esac
        ;;
    esac
    return ret
}
"""


def quoted(text):
    """Returns a text in quotes for a shell."""
    return "'" + text.replace("'", "'\\''") + "'"


def zsh_text(text):
    return re.sub(r"[\\:\[\]]", r"\\\g<0>", text)


def zsh_action(argument):
    """Returns how a value is completed."""
    if argument.choices:
        return f"({' '.join(argument.choices)})"
    return "_files -/" if argument.is_folder else "_files"


def zsh_option(option):
    """Returns an option. One with a value can be given again: the help doesn't list which can."""
    values = "".join(
        f":{':' * is_optional}{zsh_text(name)}:{zsh_action(option)}"
        for name, is_optional, _ in option.values
    )
    names = [it + ("=" if it.startswith("--") else "+") * bool(values) for it in option.names]
    before = "*" if values else f"({' '.join(names)})" if names[1:] else ""
    after = f"[{zsh_text(first_sentence(option.help))}]{values}"
    if not names[1:]:
        return quoted(before + names[0] + after)
    return f"{quoted(before)}{{{','.join(names)}}}{quoted(after)}"


def zsh_arguments(command):
    """Returns the arguments of a command in order."""
    found = []
    for argument in command.arguments:
        for name, is_optional, is_repeated in argument.values:
            place = "*" if is_repeated else f"{len(found) + 1}{':' * is_optional}"
            found.append(quoted(f"{place}:{zsh_text(name)}:{zsh_action(argument)}"))
    return " ".join(found)


def zsh_cases(command):
    """Returns the lines for the arguments of a command that has commands below it."""
    cases = [f"{it.name}) {function_name(it)} && ret=0 ;;" for it in command.commands]
    if command.arguments:
        cases.append(f"*) _arguments -s -S $given {zsh_arguments(command)} && ret=0 ;;")
    return cases


def zsh_function(command):
    """Returns the lines of the function of a command."""
    parts = {
        "NAME": function_name(command),
        "OPTIONS": [zsh_option(it) for it in command.options],
        "ARGUMENTS": zsh_arguments(command),
        "BELOW": [
            quoted(f"{it.name}:{zsh_text(first_sentence(it.about))}") for it in command.commands
        ],
        "FILES": ["_files && ret=0"] if command.arguments else [],
        "CASES": zsh_cases(command),
    }
    text = filled(ZSH_COMMANDS if command.commands else ZSH_COMMAND, parts)
    return [it.rstrip() for it in text.split("\n")]


def zsh(program):
    """Returns the completions for zsh."""
    parts = {
        "HEADING": heading(program, "zsh"),
        "NAME": function_name(program),
        "PROGRAM": program.name,
        "FUNCTIONS": each_line(zsh_function, program),
    }
    return filled(ZSH_TEXT, parts)


FISH_TEXT = """\
@HEADING@

# Returns whether the words before the cursor are of this command. With `first` they also must not
# have an argument.
function _@NAME@_at --argument-names wanted state
    set -l command @PROGRAM@
    set -l has_argument no
    set -l is_value no
    set -l words (commandline -opc)
    set -e words[1]
    for word in $words
        if test $is_value = yes
            set is_value no
        else if test "$word" = --
            set has_argument yes
            break
        else if string match -qr -- '^-.' "$word"
            contains -- "$command $word" @VALUED@
            and set is_value yes
        else if test $has_argument = no; and contains -- "$command $word" @COMMANDS@
            set command "$command $word"
        else
            set has_argument yes
        end
    end
    test "$command" = "$wanted"; and test "$state $has_argument" != 'first yes'
end

complete -c @PROGRAM@ -f
@LINES@
"""
# Without its argument the function completes `--option=` as a part of the folder.
FISH_FOLDERS = '(__fish_complete_directories (commandline -ct | string replace -r "^--[^=]*=" ""))'


def fish_text(text):
    return "'" + re.sub(r"['\\]", r"\\\g<0>", text) + "'"


def fish_value(option):
    """Returns how the value of an option is completed."""
    if option.choices:
        return f" -x -a {fish_text(' '.join(option.choices))}"
    return f" -x -a {fish_text(FISH_FOLDERS)}" if option.is_folder else " -r -F"


def fish_option(option):
    """Returns an option with its names, value and description."""
    names = [f"-l {it[2:]}" if it.startswith("--") else f"-s {it[1:]}" for it in option.names]
    value = fish_value(option) if option.values else ""
    return f"{' '.join(names)}{value} -d {fish_text(first_sentence(option.help))}"


def fish_lines(program):
    """Yields the lines that complete the commands, options and arguments."""
    for command in program.all():
        start = f"complete -c {program.name} -n "
        at = f'"_{function_name(program)}_at {quoted(command.path)}"'
        for it in command.commands:
            first = at[:-1] + ' first"'
            yield f"{start}{first} -a {it.name} -d {fish_text(first_sentence(it.about))}"
        if command.arguments:
            yield f"{start}{at} -F"
        for option in command.options:
            yield f"{start}{at} {fish_option(option)}"


def fish(program):
    """Returns the completions for fish."""
    below = [it.path for it in program.all()[1:]]
    valued = [f"{it.path} {name}" for it in program.all() for name in names_of(it.valued).split()]
    parts = {
        "HEADING": heading(program, "fish"),
        "NAME": function_name(program),
        "PROGRAM": program.name,
        "COMMANDS": " ".join(map(fish_text, below)),
        "VALUED": " ".join(map(fish_text, valued)),
        "LINES": list(fish_lines(program)),
    }
    return filled(FISH_TEXT, parts)
