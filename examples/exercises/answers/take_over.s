; Exercise of lesson 2: a block goes from one owner to another by a claim.
;
; Board 0 stores 5 and owns the block at 64. Complete board 1: behind `wait` it makes 6 of the 5 and stores it at 64, so that it takes the
; block over by a claim, and not by a fill for writing. Then board 0 reads the 6.
;
; $ sched 1
; board 0 halted
; shown 0 6
; board 1 halted
; writebacks 0
;> store 0 0000000040 00000005
;> fill 1 data read 0000000040
;> claim 1 0000000040
;> store 1 0000000040 00000006
;> fill 0 data read 0000000040
;> load 0 0000000040 00000006
;= 0 fill 1 data write 0000000040
;= 1 claim 1 0000000040

.page 0 0 rw                    ; 64: the word; 128 and 160: board 0 and board 1 has stored

.board
        li   r1, 5
        li   r2, 1
        st   r1, 64(r0)
        st   r2, 128(r0)
wait:   ld   r3, 160(r0)
        beq  r3, r0, wait
        ld   r4, 64(r0)
        show r4
        halt

.board
        li   r2, 1
wait:   ld   r3, 128(r0)
        beq  r3, r0, wait
        ld   r4, 64(r0)
        addi r4, r4, 1
        st   r4, 64(r0)
        st   r2, 160(r0)
        halt
