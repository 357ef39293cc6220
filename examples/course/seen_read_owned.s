; What the caches make of a ReadOwned that they see: the owner supplies the block, and every copy goes.
;
;   OwnedExclusive       supplies, and is Invalid: board 0 when board 1 stores
;   OwnedNonExclusive    supplies, and is Invalid: board 1 when board 2 stores
;   UnOwned              is Invalid: board 0 when board 2 stores
;
; The words at 64 to 72 stand in one block. Board 0 stores 5 at 64. Board 1 stores 6 at 68, and the 5 comes with the block. Board 0 loads it again.
; Board 2 stores 7 at 72, and 5 and 6 come with the block. Then boards 0 and 1 fetch it once more. The words at 128, 160, 192 and
; 224 tell the next board that it may go on.
;
; $ sched 1
; board 0 halted
; shown 0 6
; shown 0 7
; board 1 halted
; shown 1 5
; shown 1 7
; board 2 halted
; shown 2 5
; shown 2 6
; writebacks 0
;> fill 0 data write 0000000040
;> store 0 0000000040 00000005
;> fill 1 data write 0000000040
;> store 1 0000000044 00000006
;> fill 0 data read 0000000040
;> fill 2 data write 0000000040
;> store 2 0000000048 00000007
;= 1 fill 0 data write 0000000040
;= 1 fill 1 data write 0000000040
;= 1 fill 2 data write 0000000040
;= 2 fill 0 data read 0000000040
;= 1 fill 1 data read 0000000040

.page 0 0 rw

.board
        li   r1, 5
        li   r2, 1
        st   r1, 64(r0)
        st   r2, 128(r0)
wait:   ld   r3, 160(r0)
        beq  r3, r0, wait
        ld   r4, 68(r0)
        show r4
        st   r2, 192(r0)
last:   ld   r3, 224(r0)
        beq  r3, r0, last
        ld   r4, 72(r0)
        show r4
        halt

.board
        li   r1, 6
        li   r2, 1
wait:   ld   r3, 128(r0)
        beq  r3, r0, wait
        st   r1, 68(r0)
        ld   r4, 64(r0)
        show r4
        st   r2, 160(r0)
last:   ld   r3, 224(r0)
        beq  r3, r0, last
        ld   r4, 72(r0)
        show r4
        halt

.board
        li   r1, 7
        li   r2, 1
wait:   ld   r3, 192(r0)
        beq  r3, r0, wait
        st   r1, 72(r0)
        ld   r4, 64(r0)
        show r4
        ld   r4, 68(r0)
        show r4
        st   r2, 224(r0)
        halt
