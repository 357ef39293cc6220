; A lost update: two boards each add 1 to a counter without a lock, and one of the two may be lost. Board 2 waits for both, and shows the counter.
;
; By the schedule of 0, board 1 loads, board 0 loads, and only then both store: each stores 1. By the schedule of 1, board 0 has stored 1 before
; board 1 loads, which stores 2. Of the starts 0 to 19, nine lose an update. Every trace is judged good: the machine is right, and the
; program is wrong.
;
; $ sched 0
; board 0 halted retired 6
; board 1 halted retired 6
; board 2 halted
; shown 2 1
; $ sched 1
; board 0 halted retired 6
; board 1 halted retired 6
; board 2 halted
; shown 2 2

.page 0 0 rw                    ; 64: the counter; 128 and 160: board 0 and board 1 are done

.board
        li   r2, 1
        ld   r1, 64(r0)
        addi r1, r1, 1
        st   r1, 64(r0)
        st   r2, 128(r0)
        halt

.board
        li   r2, 1
        ld   r1, 64(r0)
        addi r1, r1, 1
        st   r1, 64(r0)
        st   r2, 160(r0)
        halt

.board
wait:   ld   r3, 128(r0)
        beq  r3, r0, wait
last:   ld   r3, 160(r0)
        beq  r3, r0, last
        ld   r4, 64(r0)
        show r4
        halt
