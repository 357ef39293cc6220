; The program of sum.s, stopped at the first claim of the block in which its page's entry stands, 3fc0000000 in hexadecimal: status 7.
;
; That claim is entry 4 of the history, and the watch is the first, so number 0, and saw one claim. The step of the entry goes to its end:
; the `ld` is done, 1 retired, and the entries 5 to 7 stay in the history. The board has not ended.
.page 0 0 rw
.word 0 64 41

.board
        ld   r1, 64(r0)
        addi r1, r1, 1
        st   r1, 64(r0)
        halt
