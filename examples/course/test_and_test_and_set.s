; A lock by test-and-set with a look before it: while the lock is held, each board looks at its own copy of the block, and the bus is
; free. test_and_set.s is the same without the look.
;
; Each board looks six times, and gives up. It fetches the block with the first look, and none of the other five needs the bus: 6 fills, for with
; it come the blocks of the root entry and of the page's entry. The only claim is that of the page's entry, when the page comes in.
; There, 14 blocks were fetched. Which board comes first changes no count.
;
; board 0 halted retired 28
; shown 0 1
; board 1 halted retired 28
; shown 1 1
; loads 12
; tas 0
; fills 6
; claims 1
;= 1 fill 0 data read 0000000040
;= 1 fill 1 data read 0000000040

.page 0 0 rw
.word 0 64 1                    ; the lock is held, and nobody gives it back

.board
        li   r2, 6              ; how many looks are left
look:   ld   r1, 64(r0)
        beq  r1, r0, try        ; the lock is free
        addi r2, r2, -1
        bne  r2, r0, look
        jmp  done
try:    tas  r1, 64(r0)
        bne  r1, r0, look       ; another board was faster
done:   show r1
        halt

.board
        li   r2, 6
look:   ld   r1, 64(r0)
        beq  r1, r0, try
        addi r2, r2, -1
        bne  r2, r0, look
        jmp  done
try:    tas  r1, 64(r0)
        bne  r1, r0, look
done:   show r1
        halt
