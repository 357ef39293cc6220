; What the caches make of a ReadShared that they see. The owner supplies the block and stays its owner, and all keep their copies.
;
;   OwnedExclusive       supplies, and is OwnedNonExclusive: board 0 when board 1 reads
;   OwnedNonExclusive    supplies, and stays so: board 0 when board 2 reads
;   UnOwned              stays so: board 1 when board 2 reads
;
; Memory has 0 throughout, for nothing is written back; so the 5 that boards 1 and 2 load came from board 0. When board 2 has loaded,
; boards 0 and 1 load once more, and fetch nothing. The words at 128, 160 and 192 tell the next board that it may go on.
;
; $ sched 1
; board 0 halted
; shown 0 5
; board 1 halted
; shown 1 5
; shown 1 5
; board 2 halted
; shown 2 5
; writebacks 0
;> store 0 0000000040 00000005
;> fill 1 data read 0000000040
;> load 1 0000000040 00000005
;> fill 2 data read 0000000040
;> load 2 0000000040 00000005
;= 1 fill 0 data write 0000000040
;= 0 fill 0 data read 0000000040
;= 1 fill 1 data read 0000000040
;= 1 fill 2 data read 0000000040

.page 0 0 rw

.board
        li   r1, 5
        li   r2, 1
        st   r1, 64(r0)
        st   r2, 128(r0)
wait:   ld   r3, 192(r0)
        beq  r3, r0, wait
        ld   r4, 64(r0)
        show r4
        halt

.board
        li   r2, 1
wait:   ld   r3, 128(r0)
        beq  r3, r0, wait
        ld   r4, 64(r0)
        show r4
        st   r2, 160(r0)
last:   ld   r3, 192(r0)
        beq  r3, r0, last
        ld   r4, 64(r0)
        show r4
        halt

.board
        li   r2, 1
wait:   ld   r3, 160(r0)
        beq  r3, r0, wait
        ld   r4, 64(r0)
        show r4
        st   r2, 192(r0)
        halt
