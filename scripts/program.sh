# What spur, prove, the scripts of examples, bench, scripts and tools, and .ci/run share: where the program is, what it is made from, and whether the one that
# is there was proved from these very sources.
#
# What was proved is told by a note beside the program, and by no file's time. It has three lines: the checksum of the sources, the
# toolchain's line, and the checksum of the program.

top=$(cd "$(dirname "${BASH_SOURCE[0]}")/.." && pwd) || exit 126
name=spur_monitor
crate=$top/crates/$name
program=$crate/out/$name
note=$program.proved

has_rt() { command -v rt >/dev/null; }

sum_of() { sha256sum | cut -d ' ' -f 1; }

# The crates that the program stands on, and its own, in the order of crates.txt.
crates_of_program() {
    awk -v program="$name" '
        { sub(/#.*/, "") }
        split($0, half, ":") > 1 { split(half[1], head, " "); crates[++count] = head[1]; below[head[1]] = half[2] }
        function take(crate,    libraries, i, n) {
            if (!(crate in below) || crate in taken) return
            taken[crate]
            n = split(below[crate], libraries, " ")
            for (i = 1; i <= n; i++) take(libraries[i])
        }
        END { take(program); for (i = 1; i <= count; i++) if (crates[i] in taken) print crates[i] }
    ' "$top/crates.txt"
}

# The checksum of crates.txt and of all files that the proof of the program reads, with their names.
sources_sum() {
    local folders
    mapfile -t folders < <(crates_of_program | sed 's,.*,crates/&/src\ncrates/&/specs\ncrates/&/proofs,')
    (
        cd "$top" || exit
        find crates.txt "${folders[@]}" -type f -print0 2>/dev/null | LC_ALL=C sort -z | xargs -0 sha256sum --
    ) | sum_of
}

# Whether the program that is there was proved from these sources by this toolchain, or by any where there is none.
is_proved() {
    local sources toolchain made
    [ -x "$program" ] && [ -f "$note" ] || return 1
    { read -r sources && read -r toolchain && read -r made; } <"$note" || return 1
    [ "$sources" = "$(sources_sum)" ] && [ "$made" = "$(sum_of <"$program")" ] || return 1
    ! has_rt || [ "$toolchain" = "$(rt version)" ]
}

# Keeps beside the program that it was proved from the sources with the checksum given, which are to be there still.
keep_note() {
    rm -f "$note"
    if [ "$1" != "$(sources_sum)" ]; then
        echo "the sources changed while they were proved, so it is not noted that they were; prove them again" >&2
        return 1
    fi
    [ -x "$program" ] && printf '%s\n' "$1" "$(rt version)" "$(sum_of <"$program")" >"$note"
}
