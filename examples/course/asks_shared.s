; What a board asks of the bus for a block that it owns while others have copies, OwnedNonExclusive: nothing to read it, and a claim to
; write it.
;
; Board 0 stores 5, and owns the block alone. It says so by the word at 128. Board 1 loads the word, which board 0 supplies, and says so by the
; word at 160. Then board 0 loads and stores again: it never fetches the block a second time, and claims it once.
;
; $ sched 1
; board 0 halted
; shown 0 5
; board 1 halted
; shown 1 5
; writebacks 0
;> fill 0 data write 0000000040
;> store 0 0000000040 00000005
;> fill 1 data read 0000000040
;> load 1 0000000040 00000005
;> load 0 0000000040 00000005
;> claim 0 0000000040
;> store 0 0000000040 00000006
;= 1 fill 0 data write 0000000040
;= 0 fill 0 data read 0000000040
;= 1 fill 1 data read 0000000040
;= 1 claim 0 0000000040

.page 0 0 rw

.board
        li   r1, 5
        li   r2, 1
        st   r1, 64(r0)
        st   r2, 128(r0)
wait:   ld   r3, 160(r0)
        beq  r3, r0, wait
        ld   r4, 64(r0)         ; OwnedNonExclusive, read
        show r4
        addi r4, r4, 1
        st   r4, 64(r0)         ; OwnedNonExclusive, write
        halt

.board
        li   r2, 1
wait:   ld   r3, 128(r0)
        beq  r3, r0, wait
        ld   r4, 64(r0)
        show r4
        st   r2, 160(r0)
        halt
