; False sharing: two boards each count in a word of their own, and share nothing but the block in which both words stand. padded.s is the same
; with the words in two blocks.
;
; By the schedule of 0 the loads and stores come in the order 1L 0L 1S 0S 1L 0L 1S 0S 1L 1S 1L 0L 1S 0S 0L 0S. What each of them asks of the bus:
;
;   1L read   0L read   1S claim  0S write  1L read   0L -      1S claim  0S write
;   1L read   1S claim  1L -      0L read   1S claim  0S write  0L -      0S -
;
; `read` and `write` are fills: 5 for reading, 3 for writing, and 4 claims. Padded, there are 2 fills and 2 claims.
;
; $ sched 0
; board 0 halted retired 23
; shown 0 4
; board 1 halted retired 23
; shown 1 4
; loads 8
; stores 8
;= 2 fill 0 data read 0000000040
;= 3 fill 0 data write 0000000040
;= 0 claim 0 0000000040
;= 3 fill 1 data read 0000000040
;= 0 fill 1 data write 0000000040
;= 4 claim 1 0000000040

.page 0 0 rw

.board
        li   r2, 4
again:  ld   r1, 64(r0)
        addi r1, r1, 1
        st   r1, 64(r0)
        addi r2, r2, -1
        bne  r2, r0, again
        show r1
        halt

.board
        li   r2, 4
again:  ld   r1, 68(r0)         ; in the block of 64
        addi r1, r1, 1
        st   r1, 68(r0)
        addi r2, r2, -1
        bne  r2, r0, again
        show r1
        halt
