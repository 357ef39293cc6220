; A spin lock: two boards add 1 to a counter three times each, and none is lost, by any schedule. lost_update.s is the same without a lock, once each.
;
; A board that finds the lock held looks at it until it is free, and only then tries again to take it. Board 2 waits for both, and shows the
; counter.
;
; $ sched 0
; board 0 halted
; board 1 halted
; board 2 halted
; shown 2 6
; $ sched 1
; board 0 halted
; board 1 halted
; board 2 halted
; shown 2 6
; $ sched 2 --lines 16
; board 0 halted
; board 1 halted
; board 2 halted
; shown 2 6

.page 0 0 rw                    ; 64: the lock; 96: the counter; 128 and 160: board 0 and board 1 are done

.board
        li   r2, 1
        li   r5, 3              ; how many times are left
look:   ld   r1, 64(r0)
        bne  r1, r0, look       ; it is held
        tas  r1, 64(r0)
        bne  r1, r0, look       ; another board was faster
        ld   r3, 96(r0)
        addi r3, r3, 1
        st   r3, 96(r0)
        st   r0, 64(r0)         ; gives it back
        addi r5, r5, -1
        bne  r5, r0, look
        st   r2, 128(r0)
        halt

.board
        li   r2, 1
        li   r5, 3
look:   ld   r1, 64(r0)
        bne  r1, r0, look
        tas  r1, 64(r0)
        bne  r1, r0, look
        ld   r3, 96(r0)
        addi r3, r3, 1
        st   r3, 96(r0)
        st   r0, 64(r0)
        addi r5, r5, -1
        bne  r5, r0, look
        st   r2, 160(r0)
        halt

.board
wait:   ld   r3, 128(r0)
        beq  r3, r0, wait
last:   ld   r3, 160(r0)
        beq  r3, r0, last
        ld   r4, 96(r0)
        show r4
        halt
