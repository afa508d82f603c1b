# Writes what zsh completes after each of $QUESTIONS, which are lines, to the file $ANSWERS, and ends.
# The file gets a line `= LINE`, and below it a line for each completion, with its description after
# a tab. test_completions.py sources it in a terminal.

COLUMNS=500
fpath=($COMPLETIONS $fpath)
autoload -Uz compinit
compinit -u -D

# Writes the matches before it adds them. A call with -O, -A or -D adds none.
compadd() {
    if [[ ${@[1,(i)(-|--)]} == *-(O|A|D)\ * ]]; then
        builtin compadd "$@"
        return
    fi
    local -a matches shown
    local at from
    if (( $@[(I)-d] )); then
        from=$@[$@[(i)-d]+1]
        if [[ $from == \(* ]]; then
            eval "shown=$from"
        else
            shown=("${(@P)from}")
        fi
    fi
    builtin compadd -A matches -D shown "$@"
    for ((at = 1; at <= $#matches; at++)); do
        print -r -- "${(Q)matches[at]}"$'\t'"$shown[at]" >> $ANSWERS
    done
    builtin compadd "$@"
}

answer() {
    local line
    for line in ${(f)QUESTIONS}; do
        print -r -- "= $line" >> $ANSWERS
        BUFFER=$line
        CURSOR=$#BUFFER
        zle list-choices
    done
    BUFFER=exit
    zle accept-line
}
zle -N zle-line-init answer
