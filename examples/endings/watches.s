; The program of sum.s with two watches. No block of the first one's address, 1000 in hexadecimal, is ever claimed. The second
; watch, number 1, stops the run at entry 4, the claim of the block in which the page's entry stands: status 7.
;
; So the first watch saw no claim, and the second saw one. The step goes to its end: the `ld` is done, 1 retired.
.page 0 0 rw
.word 0 64 41

.board
        ld   r1, 64(r0)
        addi r1, r1, 1
        st   r1, 64(r0)
        halt
