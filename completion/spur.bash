# Completes the words of `spur` and `./spur` in bash. To be read by the shell: `. completion/spur.bash`.
#
# scripts/words compares the words, and these exit statuses, with those of --help:
#   0 fine
#   1 some board ended otherwise than by halt, or the trace is bad
#   2 words refused
#   3 input refused
#   4 input not read
#   5 output not written
#   6 swap failed before the run
#   7 stopped by a watch
#   9 out of memory

# The flags of a command.
_spur_flags() {
    case $1 in
        run) echo "--frames --lines --budget --ahead --counts --trace" ;;
        sched) echo "--frames --lines --budget --ahead --counts --trace --late --watch" ;;
        check) echo "--budget" ;;
    esac
}

# How many numbers stand behind a command's name.
_spur_numbers() {
    case $1 in
        sched) echo 1 ;;
        gen) echo 3 ;;
        *) echo 0 ;;
    esac
}

# The flags of the command in word 1 that may still stand: each once, and --watch up to eight times.
_spur_flags_left() {
    local flag word times most
    for flag in $(_spur_flags "${COMP_WORDS[1]}"); do
        times=0
        most=1
        [ "$flag" = --watch ] && most=8
        for word in "${COMP_WORDS[@]:2:COMP_CWORD-2}"; do
            [ "$word" = "$flag" ] && times=$((times + 1))
        done
        [ "$times" -lt "$most" ] && echo "$flag"
    done
}

# What a word may be, a line each. Of a number only those of --lines are few enough to be told.
_spur_offers() {
    case ${COMP_WORDS[COMP_CWORD - 1]} in
        '<' | '>' | --frames | --budget | --ahead | --watch) return ;;
        --lines)
            printf '%s\n' 16 32 64 128 256 512 1024 2048 4096
            return
            ;;
    esac
    if [ "$COMP_CWORD" -eq 1 ]; then
        printf '%s\n' run sched check asm gen --help --version
    elif [ "$COMP_CWORD" -gt $((1 + $(_spur_numbers "${COMP_WORDS[1]}"))) ]; then
        _spur_flags_left
    fi
}

# Behind < and > stand files, which bash completes itself.
_spur() {
    mapfile -t COMPREPLY < <(compgen -W "$(_spur_offers)" -- "${COMP_WORDS[COMP_CWORD]}")
}

complete -o bashdefault -o default -F _spur spur ./spur
