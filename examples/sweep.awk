# Reads what `sched --counts --trace` writes, and writes the numbers of its row of examples/sweep: the 21 counts, and what
# these do not part, which is followed through the trace.
#
# What a board's line holds, why a block is no longer there, and which board owns a block follow from the fills, claims,
# write-backs and flushes of the trace alone. A fill puts its block on the line that is the block's number modulo the number of
# lines; what stood there was written back before where it was owned.

BEGIN {
    kinds = split("loads stores tas align unmapped missing leaving protection reference dirty fills claims writebacks " \
        "refreshes flushes leaves outs ins setrefs setdirties clearrefs", kind, " ")
    layers = split("root pte data", layer, " ")
    causes = split("first replaced taken out", cause, " ")
    for (i = 1; i <= kinds; i++) is_kind[kind[i]]
}

$1 == "%trace" { traced = 1; boards = $3; lines = $5; next }
!traced { if ($1 in is_kind) count[$1] = $2; next }
$1 == "fill" { fill($2, $3, $4, $5) }
$1 == "claim" { own_alone($2, $3) }
$1 == "writeback" { delete owner[$3] }
$1 == "flush" { lose($3, $4, "out"); if (owner[$4] == $3) delete owner[$4] }

END {
    row = ""
    for (i = 1; i <= kinds; i++) row = row "," count[kind[i]] + 0
    for (i = 1; i <= layers; i++) { row = row "," of_layer[layer[i]] + 0; all += of_layer[layer[i]] }
    for (i = 1; i <= causes; i++) { row = row "," of_cause[cause[i]] + 0; data += of_cause[cause[i]] }
    print substr(row, 2) "," supplied + 0
    if (!traced || all != count["fills"] || data != of_layer["data"] + 0) {
        print "sweep.awk: the trace has other fills than the counts" > "/dev/stderr"
        exit 1
    }
}

# The number of the line of the block at an address. The most lines are 4096, so the last five hexadecimal digits say it.
function line_of(address,    n, i) {
    for (i = length(address) - 4; i <= length(address); i++) n = n * 16 + index("0123456789abcdef", substr(address, i, 1)) - 1
    return int(n / 32) % lines
}

# A block is no longer on its line of a board, for this cause.
function lose(board, block, why,    at) {
    at = board " " line_of(block)
    if (held[at] != block) return
    held[at] = ""
    lost[board " " block] = why
}

# A board is the only holder and the owner of a block.
function own_alone(board, block,    other) {
    for (other = 0; other < boards; other++) if (other != board) lose(other, block, "taken")
    owner[block] = board
}

# A block comes into a board's cache. Of a data block it is noted why it was not there.
function fill(board, of, need, block,    at, why) {
    at = board " " line_of(block)
    if (held[at] != "") lose(board, held[at], "replaced")
    of_layer[of]++
    why = lost[board " " block]
    if (of == "data") of_cause[why == "" ? "first" : why]++
    if (owner[block] != "") supplied++
    held[at] = block
    if (need == "write") own_alone(board, block)
}
