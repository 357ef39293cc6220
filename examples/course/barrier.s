; A barrier: no board goes on until all have come. Three boards come twice, and each stores before it comes and sums up behind it what all three
; have stored.
;
; A lock keeps the count of those that have come. The last one sets the count back and changes the word at 96, for which the others wait; they
; wait for a change of it, and not for a value, so the barrier serves again.
;
;   first round     board N stores N + 1, and each sums up 1 + 2 + 3 = 6
;   second round    board N stores the sum of the first round + N, and each sums up 6 + 7 + 8 = 21
;
; No board is a round ahead of another when it reads: the rounds' words stand in different places.
;
; $ sched 0
; board 0 halted
; shown 0 6
; shown 0 21
; board 1 halted
; shown 1 6
; shown 1 21
; board 2 halted
; shown 2 6
; shown 2 21
; $ sched 1
; board 0 halted
; shown 0 6
; shown 0 21
; board 1 halted
; shown 1 6
; shown 1 21
; board 2 halted
; shown 2 6
; shown 2 21
; $ sched 2
; board 0 halted
; shown 0 6
; shown 0 21
; board 1 halted
; shown 1 6
; shown 1 21
; board 2 halted
; shown 2 6
; shown 2 21

.page 0 0 rw                    ; 32: the lock; 64: how many have come; 96: the round; 128 and 144: the boards' words of the two rounds

.board
        li   r7, 0
        li   r3, 2
        shl  r8, r7, r3         ; 4 times the board's number
        addi r1, r7, 1
        st   r1, 128(r8)
        call r15, come
        ld   r1, 128(r0)
        ld   r2, 132(r0)
        add  r1, r1, r2
        ld   r2, 136(r0)
        add  r1, r1, r2
        show r1
        add  r1, r1, r7
        st   r1, 144(r8)
        call r15, come
        ld   r1, 144(r0)
        ld   r2, 148(r0)
        add  r1, r1, r2
        ld   r2, 152(r0)
        add  r1, r1, r2
        show r1
        halt
come:   ld   r4, 96(r0)         ; the round in which it comes
take:   tas  r5, 32(r0)
        bne  r5, r0, take
        ld   r5, 64(r0)
        addi r5, r5, 1
        li   r6, 3
        beq  r5, r6, last
        st   r5, 64(r0)
        st   r0, 32(r0)
wait:   ld   r5, 96(r0)
        beq  r5, r4, wait
        jr   r15
last:   st   r0, 64(r0)
        st   r0, 32(r0)
        addi r4, r4, 1
        st   r4, 96(r0)         ; all may go on
        jr   r15

.board
        li   r7, 1
        li   r3, 2
        shl  r8, r7, r3
        addi r1, r7, 1
        st   r1, 128(r8)
        call r15, come
        ld   r1, 128(r0)
        ld   r2, 132(r0)
        add  r1, r1, r2
        ld   r2, 136(r0)
        add  r1, r1, r2
        show r1
        add  r1, r1, r7
        st   r1, 144(r8)
        call r15, come
        ld   r1, 144(r0)
        ld   r2, 148(r0)
        add  r1, r1, r2
        ld   r2, 152(r0)
        add  r1, r1, r2
        show r1
        halt
come:   ld   r4, 96(r0)
take:   tas  r5, 32(r0)
        bne  r5, r0, take
        ld   r5, 64(r0)
        addi r5, r5, 1
        li   r6, 3
        beq  r5, r6, last
        st   r5, 64(r0)
        st   r0, 32(r0)
wait:   ld   r5, 96(r0)
        beq  r5, r4, wait
        jr   r15
last:   st   r0, 64(r0)
        st   r0, 32(r0)
        addi r4, r4, 1
        st   r4, 96(r0)
        jr   r15

.board
        li   r7, 2
        li   r3, 2
        shl  r8, r7, r3
        addi r1, r7, 1
        st   r1, 128(r8)
        call r15, come
        ld   r1, 128(r0)
        ld   r2, 132(r0)
        add  r1, r1, r2
        ld   r2, 136(r0)
        add  r1, r1, r2
        show r1
        add  r1, r1, r7
        st   r1, 144(r8)
        call r15, come
        ld   r1, 144(r0)
        ld   r2, 148(r0)
        add  r1, r1, r2
        ld   r2, 152(r0)
        add  r1, r1, r2
        show r1
        halt
come:   ld   r4, 96(r0)
take:   tas  r5, 32(r0)
        bne  r5, r0, take
        ld   r5, 64(r0)
        addi r5, r5, 1
        li   r6, 3
        beq  r5, r6, last
        st   r5, 64(r0)
        st   r0, 32(r0)
wait:   ld   r5, 96(r0)
        beq  r5, r4, wait
        jr   r15
last:   st   r0, 64(r0)
        st   r0, 32(r0)
        addi r4, r4, 1
        st   r4, 96(r0)
        jr   r15
