; A store to a block that the board has, and may not be alone with: the transaction Claim. No word moves, and all other copies go.
;
; Both boards load the word at 64. Board 1 says so by the word at 128, and then board 0 stores 7: it claims the block, and board 1's copy
; goes. Board 0 says so by the word at 160, and board 1 has to fetch the block again. These entries come in this order by every schedule.
;
; $ sched 1
; board 0 halted
; board 1 halted
; shown 1 7
;> load 1 0000000040 00000000
;> claim 0 0000000040
;> store 0 0000000040 00000007
;> fill 1 data read 0000000040
;> load 1 0000000040 00000007
;= 1 claim 0 0000000040
;= 1 fill 0 data read 0000000040
;= 2 fill 1 data read 0000000040

.page 0 0 rw

.board
        li   r1, 7
        li   r2, 1
        ld   r3, 64(r0)
wait:   ld   r4, 128(r0)
        beq  r4, r0, wait
        st   r1, 64(r0)
        st   r2, 160(r0)
        halt

.board
        li   r2, 1
        ld   r3, 64(r0)
        st   r2, 128(r0)
wait:   ld   r4, 160(r0)
        beq  r4, r0, wait
        ld   r3, 64(r0)
        show r3
        halt
