; A producer and a consumer with a buffer of four words and no lock: the producer alone writes how many it has put, and the consumer alone how many it
; has taken. The buffer is empty where both are the same, and full where they are 4 apart.
;
; Ten items go through, 1 to 10, in their order: the consumer shows their sum, 55, and the sum of
; all sums on the way: 1 + 3 + 6 + 10 + 15 + 21 + 28 + 36 + 45 + 55 = 220. Another order of the items would change it.
;
; $ sched 0
; board 0 halted
; board 1 halted
; shown 1 55
; shown 1 220
; $ sched 1
; board 0 halted
; board 1 halted
; shown 1 55
; shown 1 220
; $ sched 2
; board 0 halted
; board 1 halted
; shown 1 55
; shown 1 220

.page 0 0 rw                    ; 64: how many were put; 96: how many were taken; 128 to 143: the buffer

.board                          ; the producer
        li   r1, 0              ; how many it has put
        li   r2, 10
        li   r3, 3
        li   r4, 2
        li   r7, 4
full:   ld   r5, 96(r0)
        sub  r5, r1, r5
        beq  r5, r7, full
        and  r6, r1, r3         ; the place: the number modulo 4
        shl  r6, r6, r4
        addi r1, r1, 1
        st   r1, 128(r6)        ; the item
        st   r1, 64(r0)         ; it is put, and not before
        bne  r1, r2, full
        halt

.board                          ; the consumer
        li   r1, 0              ; how many it has taken
        li   r2, 10
        li   r3, 3
        li   r4, 2
empty:  ld   r5, 64(r0)
        beq  r5, r1, empty
        and  r6, r1, r3
        shl  r6, r6, r4
        ld   r7, 128(r6)
        add  r8, r8, r7
        add  r9, r9, r8
        addi r1, r1, 1
        st   r1, 96(r0)         ; its place is free again, and not before
        bne  r1, r2, empty
        show r8
        show r9
        halt
