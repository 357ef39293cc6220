; Exercise of lesson 5: three boards count, and disturb each other for nothing.
;
; Each board counts to 8 in a word of its own; when the other two have said that they are done, board 0 adds the three words up. As it is, the three
; words stand in one block. Give each board a block of its own: board N's counter stands at 64 + 32 * N. Change nothing but places.
;
; $ sched 1
; board 0 halted
; shown 0 24
; board 1 halted
; board 2 halted
; stores 26
;= 1 fill 0 data read 0000000040
;= 1 claim 0 0000000040
;= 1 fill 1 data read 0000000060
;= 1 claim 1 0000000060
;= 1 fill 2 data read 0000000080
;= 1 claim 2 0000000080
;= 1 fill 0 data read 0000000060
;= 1 fill 0 data read 0000000080
; $ sched 2
; board 0 halted
; shown 0 24
; board 1 halted
; board 2 halted
;= 1 claim 0 0000000040
;= 1 claim 1 0000000060
;= 1 claim 2 0000000080

.page 0 0 rw                    ; 64, 68, 72: the counters; 192 and 224: board 1 and board 2 is done

.board
        li   r2, 8
again:  ld   r1, 64(r0)
        addi r1, r1, 1
        st   r1, 64(r0)
        addi r2, r2, -1
        bne  r2, r0, again
wait:   ld   r3, 192(r0)
        beq  r3, r0, wait
last:   ld   r3, 224(r0)
        beq  r3, r0, last
        ld   r4, 68(r0)
        add  r1, r1, r4
        ld   r4, 72(r0)
        add  r1, r1, r4
        show r1
        halt

.board
        li   r2, 8
        li   r3, 1
again:  ld   r1, 68(r0)
        addi r1, r1, 1
        st   r1, 68(r0)
        addi r2, r2, -1
        bne  r2, r0, again
        st   r3, 192(r0)
        halt

.board
        li   r2, 8
        li   r3, 1
again:  ld   r1, 72(r0)
        addi r1, r1, 1
        st   r1, 72(r0)
        addi r2, r2, -1
        bne  r2, r0, again
        st   r3, 224(r0)
        halt
