# What examples/compare reads of a text's head: the runs that it names, and what it promises of each.
#
#     ; $ sched 1 --frames 1        the words of a run; what stands behind is promised of it
#     ; board 0 halted retired 8    a line that the report has to have; `retired N` may be left out
#     ; shown 0 5                   the values that the board shows: these and no others, in this order
#     ; fills 6                     a count
#     ;> out 0 0000000000           an entry that the trace has to have, in this order among the named ones
#     ;= 2 claim 0 0000000040       how often the trace has an entry
#
# What stands before the first words is promised of `run`. A further `;` ends a promise, and begins a comment. All other comments are
# no part of the head. The exit status is promised by the lines: 7 by `stopped`, 2 and 3 by `refused:`, 1 by the ending of a board
# that is not `halted`, and else 0.
#
# `program` is the program, and `room` a folder in which files may be made.

counted='loads|stores|tas|align|unmapped|missing|leaving|protection|reference|dirty|fills|claims|writebacks|refreshes|flushes'
counted+='|leaves|outs|ins|setrefs|setdirties|clearrefs'
ending='halted|spent|swap|running|faulted (align|unmapped|protection) [0-9a-f]{10}'
promised="stopped [0-9]+ [0-9]+|board [0-9]+ ($ending)( retired [0-9]+)?|regs [0-9]+( [0-9a-f]{8}){16}|shown [0-9]+ [0-9]+"
promised+="|probe [0-9]+ [0-9]+|($counted) [0-9]+|refused: .+"

# The lines of a text's head, without their comments.
head_of() { sed -E 's/\r$//; s/^(;[^;]*);.*$/\1/; s/[[:space:]]+$//' "$1" | grep -E "^(; \\$ .+|;> .+|;= [0-9]+ .+|; ($promised))\$"; }

# The exit status that the lines given promise.
promised_status() {
    local line status=0
    for line in "$@"; do
        case $line in
            stopped*) status=7 ;;
            'refused: word'*) status=2 ;;
            refused*) status=3 ;;
            board*halted*) : ;;
            board*) [ "$status" -eq 7 ] || status=1 ;;
        esac
    done
    echo "$status"
}

# The words with which a run is made that promises the lines given, a lone `--`, and the words given behind it. The trace is always wanted.
words_for() {
    local line counts=
    while [ "$1" != -- ]; do
        line=$1
        [[ $line =~ ^($counted)\ [0-9]+$ ]] && counts=--counts
        shift
    done
    shift
    printf '%s\n' "$@"
    [[ -z $counts || " $* " == *" --counts "* ]] || echo --counts
    [[ " $* " == *" --trace "* ]] || echo --trace
}

# What the report in the file has in a promised line's place.
found_for() {
    local found
    case $1 in
        'board '* | 'regs '* | 'probe '*) found=$(grep -E "^${1%% *} $(cut -d ' ' -f 2 <<<"$1") " "$2") ;;
        'stopped '* | 'refused: '*) found=$(grep -E '^(stopped|refused:) ' "$2") ;;
        *) found=$(grep -E "^${1%% *} " "$2") ;;
    esac
    [ -n "$found" ] || found=$(grep '^refused: ' "$2")
    echo "${found:-no such line}"
}

# Says which of the promised lines is the first that the report in the file does not keep: what is promised, and what is found.
broken_line() {
    local report=$1 line board wanted got
    shift
    for line in "$@"; do
        if [[ $line =~ ^shown\ ([0-9]+) ]]; then
            board=${BASH_REMATCH[1]}
            wanted=$(printf '%s\n' "$@" | grep "^shown $board ")
            got=$(grep "^shown $board " "$report")
            [ "$wanted" = "$got" ] && continue
            got=${got:-$(found_for "$line" "$report")}
            echo "promised ${wanted//$'\n'/, }, found ${got//$'\n'/, }"
        else
            grep -qxE "$line( retired [0-9]+)?" "$report" && continue
            echo "promised $line, found $(found_for "$line" "$report")"
        fi
        return
    done
}

# Says which of the promised entries is the first that the trace in the file does not have behind those before it, or which it has not as
# often as promised.
broken_entry() {
    local trace=$1
    shift
    [ $# -gt 0 ] || return 0
    printf '%s\n' "$@" | awk '
        NR == FNR && /^[0-9]/ { often[substr($0, length($1) + 2)] = $1; next }
        NR == FNR { wanted[++count] = $0; next }
        found < count && $0 == wanted[found + 1] { found++ }
        $0 in often { seen[$0]++ }
        END {
            if (found < count) {
                printf "promised the entry %s, and the trace has none%s\n", wanted[found + 1], found ? " behind " wanted[found] : ""
                exit
            }
            for (entry in often) if (often[entry] != seen[entry] + 0) {
                printf "promised the entry %s %d times, found %d\n", entry, often[entry], seen[entry]
                exit
            }
        }
    ' - "$trace"
}

# Makes the run of `words` with the text given, and says what of its promises, `lines` and `entries`, is the first that is not kept. The
# files report and trace in the room have what it wrote.
broken_run() {
    local made status wanted said
    if [[ ${words[0]} != run && ${words[0]} != sched ]]; then
        echo "the words begin with ${words[0]}, and not with run or sched"
        return
    fi
    if [ $((${#lines[@]} + ${#entries[@]})) -eq 0 ]; then
        echo "nothing is promised"
        return
    fi
    mapfile -t made < <(words_for "${lines[@]}" -- "${words[@]}")
    "$program" "${made[@]}" <"$1" >"$room/written"
    status=$?
    sed '/^%trace/,$d' "$room/written" >"$room/report"
    sed -n '/^%trace/,$p' "$room/written" >"$room/trace"
    said=$(broken_line "$room/report" "${lines[@]}")
    [ -n "$said" ] || said=$(broken_entry "$room/trace" "${entries[@]}")
    wanted=$(promised_status "${lines[@]}")
    [ -n "$said" ] || [ "$status" -eq "$wanted" ] || said="the exit status is $status, not $wanted"
    echo "$said"
}

# Sets `words`, `lines` and `entries` to those of the run of the number given, from 1, in a text's head. The status is 1 where it has none.
cut_run() {
    local line run=0
    words=(run) lines=() entries=()
    while IFS= read -r line; do
        [[ $run -eq 0 || $line == '; $ '* ]] && run=$((run + 1))
        [ "$run" -eq "$2" ] || continue
        case $line in
            '; $ '*) read -r -a words <<<"${line#; \$ }" ;;
            ';> '* | ';= '*) entries+=("${line#;? }") ;;
            *) lines+=("${line#; }") ;;
        esac
    done < <(head_of "$1")
    [ "$run" -ge "$2" ]
}
