; The program of sum.s with a watch of a block that is never claimed, that of 1000 in hexadecimal: the run comes to its end.
.page 0 0 rw
.word 0 64 41

.board
        ld   r1, 64(r0)
        addi r1, r1, 1
        st   r1, 64(r0)
        halt
