; With 16 lines, two blocks that share a line push each other out: each load misses.
.page 0 0 ro
.board
again: ld r1, 64(r0)
ld r2, 576(r0)
jmp again
