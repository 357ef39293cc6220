; Two boards count in one word, and have a word each beside it, on the pages 9 and 10. The trace beside this text begins with a prelude in which board 0
; brings in both pages and marks them as dirty; from then on it has fills, claims and accesses alone, and no faults.
.page 0 9 rw
.page 0 10 rw
.word 0 36864 5

.board
        lih  r3, 1
        ld   r1, -28672(r3)
        addi r1, r1, 1
        st   r1, -28672(r3)
        st   r1, -24576(r3)
        halt

.board
        lih  r3, 1
        ld   r1, -28672(r3)
        addi r1, r1, 1
        st   r1, -28672(r3)
        st   r1, -24572(r3)
        halt
