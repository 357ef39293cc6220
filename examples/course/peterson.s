; Peterson's algorithm: two boards keep each other out by loads and stores alone. A board says that it wants to enter, and lets the other go
; first; it enters when the other does not want to, or has said behind it that it waits.
;
; Each enters twice and adds 1 to the counter. Board 2 waits for both, and shows the counter.
;
; $ sched 0
; board 0 halted
; board 1 halted
; board 2 halted
; shown 2 4
; $ sched 1
; board 0 halted
; board 1 halted
; board 2 halted
; shown 2 4
; $ sched 2
; board 0 halted
; board 1 halted
; board 2 halted
; shown 2 4

.page 0 0 rw                    ; 0 and 32: board 0 and board 1 wants to enter; 64: who goes first; 96: the counter; 128 and 160: done

.board
        li   r1, 1
        li   r2, 2              ; how many times are left
enter:  st   r1, 0(r0)          ; board 0 wants to enter
        st   r1, 64(r0)         ; and lets board 1 go first
wait:   ld   r3, 32(r0)
        beq  r3, r0, inside     ; board 1 does not want to
        ld   r3, 64(r0)
        beq  r3, r1, wait       ; it is board 1's turn still
inside: ld   r4, 96(r0)
        addi r4, r4, 1
        st   r4, 96(r0)
        st   r0, 0(r0)          ; board 0 is out again
        addi r2, r2, -1
        bne  r2, r0, enter
        st   r1, 128(r0)
        halt

.board
        li   r1, 1
        li   r2, 2
enter:  st   r1, 32(r0)         ; board 1 wants to enter
        st   r0, 64(r0)         ; and lets board 0 go first
wait:   ld   r3, 0(r0)
        beq  r3, r0, inside
        ld   r3, 64(r0)
        beq  r3, r0, wait
inside: ld   r4, 96(r0)
        addi r4, r4, 1
        st   r4, 96(r0)
        st   r0, 32(r0)
        addi r2, r2, -1
        bne  r2, r0, enter
        st   r1, 160(r0)
        halt

.board
wait:   ld   r3, 128(r0)
        beq  r3, r0, wait
last:   ld   r3, 160(r0)
        beq  r3, r0, last
        ld   r4, 96(r0)
        show r4
        halt
