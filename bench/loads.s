; Twelve boards load the same word again and again, each from its own cache: all hits but the first.
.page 0 0 ro
.word 0 64 41
.board
again: ld r1, 64(r0)
ld r2, 64(r0)
ld r3, 64(r0)
jmp again
.board
again: ld r1, 64(r0)
ld r2, 64(r0)
ld r3, 64(r0)
jmp again
.board
again: ld r1, 64(r0)
ld r2, 64(r0)
ld r3, 64(r0)
jmp again
.board
again: ld r1, 64(r0)
ld r2, 64(r0)
ld r3, 64(r0)
jmp again
.board
again: ld r1, 64(r0)
ld r2, 64(r0)
ld r3, 64(r0)
jmp again
.board
again: ld r1, 64(r0)
ld r2, 64(r0)
ld r3, 64(r0)
jmp again
.board
again: ld r1, 64(r0)
ld r2, 64(r0)
ld r3, 64(r0)
jmp again
.board
again: ld r1, 64(r0)
ld r2, 64(r0)
ld r3, 64(r0)
jmp again
.board
again: ld r1, 64(r0)
ld r2, 64(r0)
ld r3, 64(r0)
jmp again
.board
again: ld r1, 64(r0)
ld r2, 64(r0)
ld r3, 64(r0)
jmp again
.board
again: ld r1, 64(r0)
ld r2, 64(r0)
ld r3, 64(r0)
jmp again
.board
again: ld r1, 64(r0)
ld r2, 64(r0)
ld r3, 64(r0)
jmp again
