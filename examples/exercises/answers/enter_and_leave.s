; Exercise of lesson 6: a lock as two subroutines, for three boards.
;
; Each board adds 1 to the counter four times, between `call r15, enter` and `call r15, leave`. As it is, both go back at once, and counts are lost.
; Complete them in each board: `enter` comes back when the board has the lock, the word at 64, which is 0 where it is free; `leave` gives it back.
; Both may use r5. Board 3 waits for all, and shows the counter and the lock.
;
; $ sched 0
; board 0 halted
; board 1 halted
; board 2 halted
; board 3 halted
; shown 3 12
; shown 3 0
; $ sched 1
; board 0 halted
; board 1 halted
; board 2 halted
; board 3 halted
; shown 3 12
; shown 3 0
; $ sched 2
; board 0 halted
; board 1 halted
; board 2 halted
; board 3 halted
; shown 3 12
; shown 3 0
; $ sched 3
; board 0 halted
; board 1 halted
; board 2 halted
; board 3 halted
; shown 3 12
; shown 3 0
; $ sched 4
; board 0 halted
; board 1 halted
; board 2 halted
; board 3 halted
; shown 3 12
; shown 3 0

.page 0 0 rw                    ; 64: the lock; 96: the counter; 128, 160 and 192: board 0, 1 and 2 is done

.board
        li   r1, 1
        li   r2, 4              ; how many times are left
again:  call r15, enter
        ld   r3, 96(r0)
        addi r3, r3, 1
        st   r3, 96(r0)
        call r15, leave
        addi r2, r2, -1
        bne  r2, r0, again
        st   r1, 128(r0)
        halt
enter:  ld   r5, 64(r0)         ; looks until it is free
        bne  r5, r0, enter
        tas  r5, 64(r0)         ; and tries to take it
        bne  r5, r0, enter      ; another board was faster
        jr   r15
leave:  st   r0, 64(r0)
        jr   r15

.board
        li   r1, 1
        li   r2, 4              ; how many times are left
again:  call r15, enter
        ld   r3, 96(r0)
        addi r3, r3, 1
        st   r3, 96(r0)
        call r15, leave
        addi r2, r2, -1
        bne  r2, r0, again
        st   r1, 160(r0)
        halt
enter:  ld   r5, 64(r0)         ; looks until it is free
        bne  r5, r0, enter
        tas  r5, 64(r0)         ; and tries to take it
        bne  r5, r0, enter      ; another board was faster
        jr   r15
leave:  st   r0, 64(r0)
        jr   r15

.board
        li   r1, 1
        li   r2, 4              ; how many times are left
again:  call r15, enter
        ld   r3, 96(r0)
        addi r3, r3, 1
        st   r3, 96(r0)
        call r15, leave
        addi r2, r2, -1
        bne  r2, r0, again
        st   r1, 192(r0)
        halt
enter:  ld   r5, 64(r0)         ; looks until it is free
        bne  r5, r0, enter
        tas  r5, 64(r0)         ; and tries to take it
        bne  r5, r0, enter      ; another board was faster
        jr   r15
leave:  st   r0, 64(r0)
        jr   r15

.board
wait:   ld   r3, 128(r0)
        beq  r3, r0, wait
more:   ld   r3, 160(r0)
        beq  r3, r0, more
last:   ld   r3, 192(r0)
        beq  r3, r0, last
        ld   r4, 96(r0)
        show r4
        ld   r4, 64(r0)
        show r4
        halt
