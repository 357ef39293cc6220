; What a cache makes of a WriteBack that it sees: a copy that is UnOwned stays. An owner never sees one, for a block has one owner, and that is
; the board that writes it back.
;
; The caches have 16 lines, so the blocks at 64 and at 576 have the same line. Board 0 stores 5 at 64, board 1 loads it, and then board 0
; loads from 576: it writes its block back. Board 1 loads its copy again without the bus. Board 2 has had no copy, and gets the 5 from
; memory. The words at 128, 160 and 192 tell the next board that it may go on.
;
; $ sched 1 --lines 16
; board 0 halted
; board 1 halted
; shown 1 5
; shown 1 5
; board 2 halted
; shown 2 5
;> store 0 0000000040 00000005
;> fill 1 data read 0000000040
;> load 1 0000000040 00000005
;> writeback 0 0000000040
;> fill 0 data read 0000000240
;> load 1 0000000040 00000005
;= 1 writeback 0 0000000040
;= 1 fill 1 data read 0000000040
;= 1 fill 2 data read 0000000040

.page 0 0 rw

.board
        li   r1, 5
        li   r2, 1
        st   r1, 64(r0)
        st   r2, 128(r0)
wait:   ld   r3, 160(r0)
        beq  r3, r0, wait
        ld   r4, 576(r0)        ; on the same line
        st   r2, 192(r0)
        halt

.board
        li   r2, 1
wait:   ld   r3, 128(r0)
        beq  r3, r0, wait
        ld   r4, 64(r0)
        show r4
        st   r2, 160(r0)
last:   ld   r3, 192(r0)
        beq  r3, r0, last
        ld   r4, 64(r0)
        show r4
        halt

.board
wait:   ld   r3, 192(r0)
        beq  r3, r0, wait
        ld   r4, 64(r0)
        show r4
        halt
