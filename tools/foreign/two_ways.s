; A simulator whose cache has two places for a block (a set-associative one) keeps two blocks whose numbers are the same modulo the lines. Here
; the second one replaces the first.
.page 0 0 rw
.board
        ld   r1, 64(r0)
        ld   r1, 68(r0)
        ld   r1, 576(r0)
        ld   r1, 580(r0)
        ld   r1, 64(r0)
        halt
