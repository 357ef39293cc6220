; A lock by test-and-set alone, which is held the whole time: each try wants the block for itself, so the block goes to and fro
; between the caches. test_and_test_and_set.s is the same with a look before the try.
;
; Each board tries six times, and gives up. By the schedule of 0 the tries come in the order 1 0 1 0 1 0 1 1 0 1 0 0: in ten of
; them the block has to be fetched, since the other board had it; in two it is still there. Besides, each board fetches the blocks of the
; root entry and of the page's entry: 14 fills. The only claim is that of the page's entry, when the page comes in.
;
; $ sched 0
; board 0 halted retired 27
; shown 0 1
; board 1 halted retired 27
; shown 1 1
; loads 0
; tas 12
; fills 14
; claims 1
;= 5 fill 0 data write 0000000040
;= 5 fill 1 data write 0000000040

.page 0 0 rw
.word 0 64 1                    ; the lock is held, and nobody gives it back

.board
        li   r2, 6              ; how many tries are left
try:    tas  r1, 64(r0)
        beq  r1, r0, done       ; the lock was free
        addi r2, r2, -1
        bne  r2, r0, try
done:   show r1
        halt

.board
        li   r2, 6
try:    tas  r1, 64(r0)
        beq  r1, r0, done
        addi r2, r2, -1
        bne  r2, r0, try
done:   show r1
        halt
