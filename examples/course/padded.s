; Two boards each count in a word of their own, and the words stand in two blocks. false_sharing.s is the same with both in one block.
;
; Each board fetches its block once, with the first load, and claims it once, with the first store. All else is done in its cache. This
; is so for every order of the steps.
;
; board 0 halted retired 23
; shown 0 4
; board 1 halted retired 23
; shown 1 4
; loads 8
; stores 8
; writebacks 0
;= 1 fill 0 data read 0000000040
;= 0 fill 0 data write 0000000040
;= 1 claim 0 0000000040
;= 1 fill 1 data read 0000000060
;= 0 fill 1 data write 0000000060
;= 1 claim 1 0000000060

.page 0 0 rw

.board
        li   r2, 4
again:  ld   r1, 64(r0)
        addi r1, r1, 1
        st   r1, 64(r0)
        addi r2, r2, -1
        bne  r2, r0, again
        show r1
        halt

.board
        li   r2, 4
again:  ld   r1, 96(r0)         ; in the block behind that of 64
        addi r1, r1, 1
        st   r1, 96(r0)
        addi r2, r2, -1
        bne  r2, r0, again
        show r1
        halt
