; The program of sum.s with two watches of one block, that of the page's entry. At its first claim, entry 4, the first watch stops the
; run, and the second is not shown the entry: it saw no claim.
.page 0 0 rw
.word 0 64 41

.board
        ld   r1, 64(r0)
        addi r1, r1, 1
        st   r1, 64(r0)
        halt
