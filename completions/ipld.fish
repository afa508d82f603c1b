# Completes the arguments of ipld in fish. Made by .ci/manual of its help. Do not edit it.

# Returns whether the words before the cursor are of this command. With `first` they also must not
# have an argument.
function __ipld_at --argument-names wanted state
    set -l command ipld
    set -l has_argument no
    set -l is_value no
    set -l words (commandline -opc)
    set -e words[1]
    for word in $words
        if test $is_value = yes
            set is_value no
        else if test "$word" = --
            set has_argument yes
            break
        else if string match -qr -- '^-.' "$word"
            contains -- "$command $word" 'ipld show -p' 'ipld show --path' 'ipld show --limit' 'ipld show -c' 'ipld show --codec' 'ipld links -c' 'ipld links --codec' 'ipld check -c' 'ipld check --codec' 'ipld cid -b' 'ipld cid --base' 'ipld cid -c' 'ipld cid --codec' 'ipld cid --cid-version' 'ipld cid --chunk' 'ipld cid --width' 'ipld cid --ignore' 'ipld cid --symlinks' 'ipld cat --offset' 'ipld cat --length' 'ipld cat --max-size' 'ipld cat --hold' 'ipld cat --limit' 'ipld ls --hold' 'ipld ls --limit' 'ipld pack -o' 'ipld pack --output' 'ipld pack --ignore' 'ipld pack --symlinks' 'ipld pack --cid-version' 'ipld pack --chunk' 'ipld pack --width' 'ipld unpack -d' 'ipld unpack --directory' 'ipld unpack --symlinks' 'ipld unpack --max-size' 'ipld unpack --hold' 'ipld unpack --limit' 'ipld car list --limit' 'ipld car inspect --limit' 'ipld car roots --limit' 'ipld car links --limit' 'ipld car graph --limit' 'ipld car missing --limit' 'ipld car verify --limit' 'ipld car extract -d' 'ipld car extract --directory' 'ipld car extract --limit' 'ipld car filter -o' 'ipld car filter --output' 'ipld car filter --version' 'ipld car filter --limit' 'ipld car index -o' 'ipld car index --output' 'ipld car index --limit' 'ipld car salvage -o' 'ipld car salvage --output' 'ipld car salvage --root' 'ipld car salvage --limit' 'ipld car create --files-from' 'ipld car create -o' 'ipld car create --output' 'ipld car create --root' 'ipld car create --version' 'ipld car create --split' 'ipld car create --limit' 'ipld car create -c' 'ipld car create --codec' 'ipld encode -o' 'ipld encode --output' 'ipld encode -c' 'ipld encode --codec'
            and set is_value yes
        else if test $has_argument = no; and contains -- "$command $word" 'ipld show' 'ipld links' 'ipld check' 'ipld cid' 'ipld cat' 'ipld ls' 'ipld pack' 'ipld unpack' 'ipld car' 'ipld car list' 'ipld car inspect' 'ipld car roots' 'ipld car links' 'ipld car graph' 'ipld car missing' 'ipld car verify' 'ipld car extract' 'ipld car filter' 'ipld car index' 'ipld car salvage' 'ipld car create' 'ipld encode'
            set command "$command $word"
        else
            set has_argument yes
        end
    end
    test "$command" = "$wanted"; and test "$state $has_argument" != 'first yes'
end

complete -c ipld -f
complete -c ipld -n "__ipld_at 'ipld' first" -a show -d 'Print a block, or the value at a path'
complete -c ipld -n "__ipld_at 'ipld' first" -a links -d 'List the links in blocks'
complete -c ipld -n "__ipld_at 'ipld' first" -a check -d 'Validate blocks'
complete -c ipld -n "__ipld_at 'ipld' first" -a cid -d 'Print a file\'s CID, or decode a CID'
complete -c ipld -n "__ipld_at 'ipld' first" -a cat -d 'Write a file of IPFS out of a CAR'
complete -c ipld -n "__ipld_at 'ipld' first" -a ls -d 'List a folder of IPFS in a CAR'
complete -c ipld -n "__ipld_at 'ipld' first" -a pack -d 'Pack files and folders into a CAR, as ipfs add does'
complete -c ipld -n "__ipld_at 'ipld' first" -a unpack -d 'Write a folder of IPFS in a CAR as files and folders'
complete -c ipld -n "__ipld_at 'ipld' first" -a car -d 'List, verify, extract and create CAR files'
complete -c ipld -n "__ipld_at 'ipld' first" -a encode -d 'Convert DAG-JSON to a block'
complete -c ipld -n "__ipld_at 'ipld'" -s h -l help -d 'Print help'
complete -c ipld -n "__ipld_at 'ipld'" -s V -l version -d 'Print version'
complete -c ipld -n "__ipld_at 'ipld show'" -F
complete -c ipld -n "__ipld_at 'ipld show'" -s p -l path -r -F -d 'Path to print in several files, which are the other arguments'
complete -c ipld -n "__ipld_at 'ipld show'" -l json -d 'Print DAG-JSON on one line, e.g. for jq'
complete -c ipld -n "__ipld_at 'ipld show'" -l unchecked -d 'Print a block of a CAR even if its digest is wrong or its hash function unsupported'
complete -c ipld -n "__ipld_at 'ipld show'" -l limit -r -F -d 'Maximum size of a CAR section, e.g. 512K or 8M'
complete -c ipld -n "__ipld_at 'ipld show'" -l zero-padding -d 'Allow zeros after the last section, in a file that is padded to a size'
complete -c ipld -n "__ipld_at 'ipld show'" -s c -l codec -x -a 'dag-cbor dag-pb dag-json raw' -d 'Codec of the block'
complete -c ipld -n "__ipld_at 'ipld show'" -s h -l help -d 'Print help'
complete -c ipld -n "__ipld_at 'ipld links'" -F
complete -c ipld -n "__ipld_at 'ipld links'" -l json -d 'Print JSON objects, one per line'
complete -c ipld -n "__ipld_at 'ipld links'" -s c -l codec -x -a 'dag-cbor dag-pb dag-json raw' -d 'Codec of the block'
complete -c ipld -n "__ipld_at 'ipld links'" -s h -l help -d 'Print help'
complete -c ipld -n "__ipld_at 'ipld check'" -F
complete -c ipld -n "__ipld_at 'ipld check'" -l canonical -d 'Also require sorted map keys (canonical DAG-CBOR)'
complete -c ipld -n "__ipld_at 'ipld check'" -l json -d 'Print JSON objects, one per line'
complete -c ipld -n "__ipld_at 'ipld check'" -s c -l codec -x -a 'dag-cbor dag-pb dag-json raw' -d 'Codec of the block'
complete -c ipld -n "__ipld_at 'ipld check'" -s h -l help -d 'Print help'
complete -c ipld -n "__ipld_at 'ipld cid'" -F
complete -c ipld -n "__ipld_at 'ipld cid'" -s t -l text -d 'Read all arguments as CIDs, and - as standard input with a CID on every line'
complete -c ipld -n "__ipld_at 'ipld cid'" -s b -l base -x -a 'base16 base32 base32upper base36 base58btc base64url' -d 'Print only the CID, in this base'
complete -c ipld -n "__ipld_at 'ipld cid'" -l v0 -d 'Print only the CID, as version 0 (DAG-PB with SHA2-256)'
complete -c ipld -n "__ipld_at 'ipld cid'" -l v1 -d 'Print only the CID, as version 1'
complete -c ipld -n "__ipld_at 'ipld cid'" -l json -d 'Print JSON objects, one per line'
complete -c ipld -n "__ipld_at 'ipld cid'" -s c -l codec -x -a 'dag-cbor dag-pb dag-json raw' -d 'Codec of the block'
complete -c ipld -n "__ipld_at 'ipld cid'" -l unixfs -d 'Print the root that \'ipld pack\' gives a file or folder, and write nothing'
complete -c ipld -n "__ipld_at 'ipld cid'" -l cid-version -x -a '0 1' -d 'Version of the CIDs'
complete -c ipld -n "__ipld_at 'ipld cid'" -l raw-leaves -d 'Put the bytes of files into raw blocks'
complete -c ipld -n "__ipld_at 'ipld cid'" -l no-raw-leaves -d 'Put the bytes of files into nodes of DAG-PB, also for version 1'
complete -c ipld -n "__ipld_at 'ipld cid'" -l chunk -r -F -d 'Number of bytes of a chunk, at most 1M'
complete -c ipld -n "__ipld_at 'ipld cid'" -l width -r -F -d 'Maximum number of links of a node of a file, from 2 to 8192'
complete -c ipld -n "__ipld_at 'ipld cid'" -l preserve -d 'Pack permissions and times'
complete -c ipld -n "__ipld_at 'ipld cid'" -l hidden -d 'Pack also the entries of folders whose names begin with a dot'
complete -c ipld -n "__ipld_at 'ipld cid'" -l ignore -r -F -d 'Leave out entries of folders that match PATTERN, in the syntax of .gitignore'
complete -c ipld -n "__ipld_at 'ipld cid'" -l symlinks -x -a 'keep follow' -d 'Pack symbolic links (keep), or the files and folders to which they lead (follow)'
complete -c ipld -n "__ipld_at 'ipld cid'" -s h -l help -d 'Print help'
complete -c ipld -n "__ipld_at 'ipld cat'" -F
complete -c ipld -n "__ipld_at 'ipld cat'" -l offset -r -F -d 'Leave out this many bytes at the beginning of the file, and the blocks that only they are in'
complete -c ipld -n "__ipld_at 'ipld cat'" -l length -r -F -d 'Write at most this many bytes, and read no block after them'
complete -c ipld -n "__ipld_at 'ipld cat'" -l max-size -r -F -d 'Maximum size of the output, e.g. 8M or 1G'
complete -c ipld -n "__ipld_at 'ipld cat'" -l hold -r -F -d 'Maximum size of the blocks that are held, if the CAR is standard input or a pipe'
complete -c ipld -n "__ipld_at 'ipld cat'" -l limit -r -F -d 'Maximum size of a CAR section, e.g. 512K or 8M'
complete -c ipld -n "__ipld_at 'ipld cat'" -l zero-padding -d 'Allow zeros after the last section, in a file that is padded to a size'
complete -c ipld -n "__ipld_at 'ipld cat'" -s h -l help -d 'Print help'
complete -c ipld -n "__ipld_at 'ipld ls'" -F
complete -c ipld -n "__ipld_at 'ipld ls'" -s l -l long -d 'Print the type, the size of a file, the CID and the name'
complete -c ipld -n "__ipld_at 'ipld ls'" -s R -l recursive -d 'List the folders in the folder too'
complete -c ipld -n "__ipld_at 'ipld ls'" -l json -d 'Print JSON objects, one per line'
complete -c ipld -n "__ipld_at 'ipld ls'" -l hold -r -F -d 'Maximum size of the blocks that are held, if the CAR is standard input or a pipe'
complete -c ipld -n "__ipld_at 'ipld ls'" -l limit -r -F -d 'Maximum size of a CAR section, e.g. 512K or 8M'
complete -c ipld -n "__ipld_at 'ipld ls'" -l zero-padding -d 'Allow zeros after the last section, in a file that is padded to a size'
complete -c ipld -n "__ipld_at 'ipld ls'" -s h -l help -d 'Print help'
complete -c ipld -n "__ipld_at 'ipld pack'" -F
complete -c ipld -n "__ipld_at 'ipld pack'" -s o -l output -r -F -d 'The CAR to create, or - for standard output'
complete -c ipld -n "__ipld_at 'ipld pack'" -s f -l force -d 'Replace CAR if it exists'
complete -c ipld -n "__ipld_at 'ipld pack'" -l no-wrap -d 'Pack one file without a folder around it'
complete -c ipld -n "__ipld_at 'ipld pack'" -l preserve -d 'Pack permissions and times'
complete -c ipld -n "__ipld_at 'ipld pack'" -l hidden -d 'Pack also the entries of folders whose names begin with a dot'
complete -c ipld -n "__ipld_at 'ipld pack'" -l ignore -r -F -d 'Leave out entries of folders that match PATTERN, in the syntax of .gitignore'
complete -c ipld -n "__ipld_at 'ipld pack'" -l symlinks -x -a 'keep follow' -d 'Pack symbolic links (keep), or the files and folders to which they lead (follow)'
complete -c ipld -n "__ipld_at 'ipld pack'" -l cid-version -x -a '0 1' -d 'Version of the CIDs'
complete -c ipld -n "__ipld_at 'ipld pack'" -l raw-leaves -d 'Put the bytes of files into raw blocks'
complete -c ipld -n "__ipld_at 'ipld pack'" -l no-raw-leaves -d 'Put the bytes of files into nodes of DAG-PB, also for version 1'
complete -c ipld -n "__ipld_at 'ipld pack'" -l chunk -r -F -d 'Number of bytes of a chunk, at most 1M'
complete -c ipld -n "__ipld_at 'ipld pack'" -l width -r -F -d 'Maximum number of links of a node of a file, from 2 to 8192'
complete -c ipld -n "__ipld_at 'ipld pack'" -s h -l help -d 'Print help'
complete -c ipld -n "__ipld_at 'ipld unpack'" -F
complete -c ipld -n "__ipld_at 'ipld unpack'" -s d -l directory -x -a '(__fish_complete_directories (commandline -ct | string replace -r "^--[^=]*=" ""))' -d 'The folder to create'
complete -c ipld -n "__ipld_at 'ipld unpack'" -l symlinks -x -a 'inside skip any' -d 'Symbolic links that may lead out of DIR: reject them (inside), leave them out (skip) or create them (any)'
complete -c ipld -n "__ipld_at 'ipld unpack'" -l preserve -d 'Set the permissions and times in the CAR'
complete -c ipld -n "__ipld_at 'ipld unpack'" -l max-size -r -F -d 'Maximum size of all files'
complete -c ipld -n "__ipld_at 'ipld unpack'" -l hold -r -F -d 'Maximum size of the blocks that are held, if the CAR is standard input or a pipe'
complete -c ipld -n "__ipld_at 'ipld unpack'" -l limit -r -F -d 'Maximum size of a CAR section, e.g. 512K or 8M'
complete -c ipld -n "__ipld_at 'ipld unpack'" -l zero-padding -d 'Allow zeros after the last section, in a file that is padded to a size'
complete -c ipld -n "__ipld_at 'ipld unpack'" -s h -l help -d 'Print help'
complete -c ipld -n "__ipld_at 'ipld car' first" -a list -d 'List the blocks of a CAR'
complete -c ipld -n "__ipld_at 'ipld car' first" -a inspect -d 'Print a summary of a CAR'
complete -c ipld -n "__ipld_at 'ipld car' first" -a roots -d 'List the roots of a CAR'
complete -c ipld -n "__ipld_at 'ipld car' first" -a links -d 'List the links of a CAR'
complete -c ipld -n "__ipld_at 'ipld car' first" -a graph -d 'Print the graph of a CAR for Graphviz'
complete -c ipld -n "__ipld_at 'ipld car' first" -a missing -d 'List roots and links whose block is not in the CARs'
complete -c ipld -n "__ipld_at 'ipld car' first" -a verify -d 'Verify the digests and the index of a CAR'
complete -c ipld -n "__ipld_at 'ipld car' first" -a extract -d 'Write the blocks of these CIDs'
complete -c ipld -n "__ipld_at 'ipld car' first" -a filter -d 'Copy blocks and their descendants to a new CAR'
complete -c ipld -n "__ipld_at 'ipld car' first" -a index -d 'Copy a CAR to version 2, with an index'
complete -c ipld -n "__ipld_at 'ipld car' first" -a salvage -d 'Copy what is whole in a damaged CAR to a new one'
complete -c ipld -n "__ipld_at 'ipld car' first" -a create -d 'Create a CAR from blocks and other CARs'
complete -c ipld -n "__ipld_at 'ipld car'" -s h -l help -d 'Print help'
complete -c ipld -n "__ipld_at 'ipld car list'" -F
complete -c ipld -n "__ipld_at 'ipld car list'" -l json -d 'Print JSON objects, one per line'
complete -c ipld -n "__ipld_at 'ipld car list'" -l limit -r -F -d 'Maximum size of a CAR section, e.g. 512K or 8M'
complete -c ipld -n "__ipld_at 'ipld car list'" -l zero-padding -d 'Allow zeros after the last section, in a file that is padded to a size'
complete -c ipld -n "__ipld_at 'ipld car list'" -l progress -d 'Print the bytes read and the time left on standard error, once a second'
complete -c ipld -n "__ipld_at 'ipld car list'" -s h -l help -d 'Print help'
complete -c ipld -n "__ipld_at 'ipld car inspect'" -F
complete -c ipld -n "__ipld_at 'ipld car inspect'" -l json -d 'Print JSON objects, one per line'
complete -c ipld -n "__ipld_at 'ipld car inspect'" -l limit -r -F -d 'Maximum size of a CAR section, e.g. 512K or 8M'
complete -c ipld -n "__ipld_at 'ipld car inspect'" -l zero-padding -d 'Allow zeros after the last section, in a file that is padded to a size'
complete -c ipld -n "__ipld_at 'ipld car inspect'" -l progress -d 'Print the bytes read and the time left on standard error, once a second'
complete -c ipld -n "__ipld_at 'ipld car inspect'" -s h -l help -d 'Print help'
complete -c ipld -n "__ipld_at 'ipld car roots'" -F
complete -c ipld -n "__ipld_at 'ipld car roots'" -l json -d 'Print JSON objects, one per line'
complete -c ipld -n "__ipld_at 'ipld car roots'" -l limit -r -F -d 'Maximum size of a CAR section, e.g. 512K or 8M'
complete -c ipld -n "__ipld_at 'ipld car roots'" -s h -l help -d 'Print help'
complete -c ipld -n "__ipld_at 'ipld car links'" -F
complete -c ipld -n "__ipld_at 'ipld car links'" -l limit -r -F -d 'Maximum size of a CAR section, e.g. 512K or 8M'
complete -c ipld -n "__ipld_at 'ipld car links'" -l zero-padding -d 'Allow zeros after the last section, in a file that is padded to a size'
complete -c ipld -n "__ipld_at 'ipld car links'" -l progress -d 'Print the bytes read and the time left on standard error, once a second'
complete -c ipld -n "__ipld_at 'ipld car links'" -s h -l help -d 'Print help'
complete -c ipld -n "__ipld_at 'ipld car graph'" -F
complete -c ipld -n "__ipld_at 'ipld car graph'" -l limit -r -F -d 'Maximum size of a CAR section, e.g. 512K or 8M'
complete -c ipld -n "__ipld_at 'ipld car graph'" -l zero-padding -d 'Allow zeros after the last section, in a file that is padded to a size'
complete -c ipld -n "__ipld_at 'ipld car graph'" -l progress -d 'Print the bytes read and the time left on standard error, once a second'
complete -c ipld -n "__ipld_at 'ipld car graph'" -s h -l help -d 'Print help'
complete -c ipld -n "__ipld_at 'ipld car missing'" -F
complete -c ipld -n "__ipld_at 'ipld car missing'" -l by-cid -d 'Compare whole CIDs, so that a block with another codec or version is missing'
complete -c ipld -n "__ipld_at 'ipld car missing'" -l json -d 'Print JSON objects, one per line'
complete -c ipld -n "__ipld_at 'ipld car missing'" -l limit -r -F -d 'Maximum size of a CAR section, e.g. 512K or 8M'
complete -c ipld -n "__ipld_at 'ipld car missing'" -l zero-padding -d 'Allow zeros after the last section, in a file that is padded to a size'
complete -c ipld -n "__ipld_at 'ipld car missing'" -l progress -d 'Print the bytes read and the time left on standard error, once a second'
complete -c ipld -n "__ipld_at 'ipld car missing'" -s h -l help -d 'Print help'
complete -c ipld -n "__ipld_at 'ipld car verify'" -F
complete -c ipld -n "__ipld_at 'ipld car verify'" -l known -d 'Ignore unsupported hash functions in the exit status'
complete -c ipld -n "__ipld_at 'ipld car verify'" -l json -d 'Print JSON objects, one per line'
complete -c ipld -n "__ipld_at 'ipld car verify'" -l limit -r -F -d 'Maximum size of a CAR section, e.g. 512K or 8M'
complete -c ipld -n "__ipld_at 'ipld car verify'" -l zero-padding -d 'Allow zeros after the last section, in a file that is padded to a size'
complete -c ipld -n "__ipld_at 'ipld car verify'" -l progress -d 'Print the bytes read and the time left on standard error, once a second'
complete -c ipld -n "__ipld_at 'ipld car verify'" -s h -l help -d 'Print help'
complete -c ipld -n "__ipld_at 'ipld car extract'" -F
complete -c ipld -n "__ipld_at 'ipld car extract'" -l all -d 'With -d, write all blocks'
complete -c ipld -n "__ipld_at 'ipld car extract'" -s d -l directory -x -a '(__fish_complete_directories (commandline -ct | string replace -r "^--[^=]*=" ""))' -d 'Write blocks to files in this existing folder, named by their CIDs'
complete -c ipld -n "__ipld_at 'ipld car extract'" -l force -d 'With -d, replace existing files'
complete -c ipld -n "__ipld_at 'ipld car extract'" -l limit -r -F -d 'Maximum size of a CAR section, e.g. 512K or 8M'
complete -c ipld -n "__ipld_at 'ipld car extract'" -l zero-padding -d 'Allow zeros after the last section, in a file that is padded to a size'
complete -c ipld -n "__ipld_at 'ipld car extract'" -l unchecked -d 'Write a block even if its digest is wrong or its hash function unsupported'
complete -c ipld -n "__ipld_at 'ipld car extract'" -s h -l help -d 'Print help'
complete -c ipld -n "__ipld_at 'ipld car filter'" -F
complete -c ipld -n "__ipld_at 'ipld car filter'" -s o -l output -r -F -d 'File to create, or - for standard output'
complete -c ipld -n "__ipld_at 'ipld car filter'" -l force -d 'Replace the file if it exists'
complete -c ipld -n "__ipld_at 'ipld car filter'" -l version -x -a '1 2' -d 'Version of the new CAR'
complete -c ipld -n "__ipld_at 'ipld car filter'" -l unchecked -d 'Copy blocks without a check of their digest and content'
complete -c ipld -n "__ipld_at 'ipld car filter'" -l limit -r -F -d 'Maximum size of a CAR section, e.g. 512K or 8M'
complete -c ipld -n "__ipld_at 'ipld car filter'" -l zero-padding -d 'Allow zeros after the last section, in a file that is padded to a size'
complete -c ipld -n "__ipld_at 'ipld car filter'" -s h -l help -d 'Print help'
complete -c ipld -n "__ipld_at 'ipld car index'" -F
complete -c ipld -n "__ipld_at 'ipld car index'" -s o -l output -r -F -d 'File to create, or - for standard output'
complete -c ipld -n "__ipld_at 'ipld car index'" -l force -d 'Replace the file if it exists'
complete -c ipld -n "__ipld_at 'ipld car index'" -l limit -r -F -d 'Maximum size of a CAR section, e.g. 512K or 8M'
complete -c ipld -n "__ipld_at 'ipld car index'" -l zero-padding -d 'Allow zeros after the last section, in a file that is padded to a size'
complete -c ipld -n "__ipld_at 'ipld car index'" -s h -l help -d 'Print help'
complete -c ipld -n "__ipld_at 'ipld car salvage'" -F
complete -c ipld -n "__ipld_at 'ipld car salvage'" -s o -l output -r -F -d 'File to create, or - for standard output'
complete -c ipld -n "__ipld_at 'ipld car salvage'" -l force -d 'Replace the file if it exists'
complete -c ipld -n "__ipld_at 'ipld car salvage'" -l root -r -F -d 'A root of the new CAR'
complete -c ipld -n "__ipld_at 'ipld car salvage'" -l json -d 'Print JSON objects, one per line'
complete -c ipld -n "__ipld_at 'ipld car salvage'" -l limit -r -F -d 'Maximum size of a CAR section, e.g. 512K or 8M'
complete -c ipld -n "__ipld_at 'ipld car salvage'" -s h -l help -d 'Print help'
complete -c ipld -n "__ipld_at 'ipld car create'" -F
complete -c ipld -n "__ipld_at 'ipld car create'" -l files-from -r -F -d 'Also include the files that LIST names, one on every line'
complete -c ipld -n "__ipld_at 'ipld car create'" -s o -l output -r -F -d 'File to create, or - for standard output'
complete -c ipld -n "__ipld_at 'ipld car create'" -l force -d 'Replace the file if it exists'
complete -c ipld -n "__ipld_at 'ipld car create'" -l root -r -F -d 'A root of the CAR'
complete -c ipld -n "__ipld_at 'ipld car create'" -l version -x -a '1 2' -d 'Version of the new CAR'
complete -c ipld -n "__ipld_at 'ipld car create'" -l v0 -d 'Give blocks of DAG-PB CIDs of version 0'
complete -c ipld -n "__ipld_at 'ipld car create'" -l unchecked -d 'Include the blocks of CARs without a check of their digest and content'
complete -c ipld -n "__ipld_at 'ipld car create'" -l split -r -F -d 'Create CARs of at most this size: NAME-0.car and so on for NAME.car, DIR/0.car for DIR/'
complete -c ipld -n "__ipld_at 'ipld car create'" -l limit -r -F -d 'Maximum size of a CAR section, e.g. 512K or 8M'
complete -c ipld -n "__ipld_at 'ipld car create'" -l zero-padding -d 'Allow zeros after the last section, in a file that is padded to a size'
complete -c ipld -n "__ipld_at 'ipld car create'" -s c -l codec -x -a 'dag-cbor dag-pb dag-json raw' -d 'Codec of the block'
complete -c ipld -n "__ipld_at 'ipld car create'" -s h -l help -d 'Print help'
complete -c ipld -n "__ipld_at 'ipld encode'" -F
complete -c ipld -n "__ipld_at 'ipld encode'" -s o -l output -r -F -d 'File to create, or - for standard output'
complete -c ipld -n "__ipld_at 'ipld encode'" -l force -d 'With -o, replace the file if it exists'
complete -c ipld -n "__ipld_at 'ipld encode'" -l canonical -d 'Require canonical DAG-JSON'
complete -c ipld -n "__ipld_at 'ipld encode'" -s c -l codec -x -a 'dag-cbor dag-json raw' -d 'Codec of the block'
complete -c ipld -n "__ipld_at 'ipld encode'" -s h -l help -d 'Print help'
