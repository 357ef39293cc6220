; What the caches make of a Claim that they see: every other copy goes, the owner's too. Nobody supplies anything, for the claiming board has
; the words. A block that is OwnedExclusive is never claimed by another board, for no other board has it.
;
;   OwnedNonExclusive    is Invalid: board 0 when board 1 claims
;   UnOwned              is Invalid: board 2 when board 1 claims
;
; Board 0 stores 5 and owns the block; boards 1 and 2 load it. Board 1 stores 6, which claims the block from its owner. Then boards 0 and 2 fetch it
; again. The words at 128, 160, 192 and 224 tell the next board that it may go on.
;
; $ sched 1
; board 0 halted
; shown 0 6
; board 1 halted
; shown 1 5
; board 2 halted
; shown 2 5
; shown 2 6
; writebacks 0
;> store 0 0000000040 00000005
;> fill 1 data read 0000000040
;> fill 2 data read 0000000040
;> claim 1 0000000040
;> store 1 0000000040 00000006
;= 1 fill 0 data write 0000000040
;= 1 fill 0 data read 0000000040
;= 1 fill 1 data read 0000000040
;= 2 fill 2 data read 0000000040
;= 1 claim 1 0000000040

.page 0 0 rw

.board
        li   r1, 5
        li   r2, 1
        st   r1, 64(r0)
        st   r2, 128(r0)
wait:   ld   r3, 224(r0)
        beq  r3, r0, wait
        ld   r4, 64(r0)
        show r4
        halt

.board
        li   r2, 1
wait:   ld   r3, 128(r0)
        beq  r3, r0, wait
        ld   r4, 64(r0)
        show r4
        st   r2, 160(r0)
last:   ld   r3, 192(r0)
        beq  r3, r0, last
        addi r4, r4, 1
        st   r4, 64(r0)
        st   r2, 224(r0)
        halt

.board
        li   r2, 1
wait:   ld   r3, 160(r0)
        beq  r3, r0, wait
        ld   r4, 64(r0)
        show r4
        st   r2, 192(r0)
last:   ld   r3, 224(r0)
        beq  r3, r0, last
        ld   r4, 64(r0)
        show r4
        halt
