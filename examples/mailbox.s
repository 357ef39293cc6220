; A producer and a consumer. The mailbox is page 0 of segment 0: a lock at 0, a word at 64 that is 1 where the box is full, and the
; item at 96. Board 0 reads three items from page 1 and puts each into the box; board 1 takes each out, adds it up, and
; stores the sums in segment 1.
.page 0 0 rw
.page 0 1 ro
.page 1 0 rw
.word 0 4096 3
.word 0 4100 5
.word 0 4104 7

.board                          ; the producer
        li   r1, 4096           ; the next item's address
        li   r2, 3              ; how many are left
next:   ld   r3, 0(r1)
wait:   tas  r4, 0(r0)          ; takes the lock
        bne  r4, r0, wait
        ld   r5, 64(r0)
        beq  r5, r0, put        ; the box is empty
        st   r0, 0(r0)          ; gives the lock back, and tries again
        jmp  wait
put:    st   r3, 96(r0)
        li   r5, 1
        st   r5, 64(r0)         ; the box is full
        st   r0, 0(r0)
        addi r1, r1, 4
        addi r2, r2, -1
        bne  r2, r0, next
        halt

.board                          ; the consumer
.seg 0 1 2 3
        lih  r6, 16384          ; r6 is 40000000 in hexadecimal: the first byte of segment 1
        li   r2, 3
        li   r7, 0              ; the sum
more:   tas  r4, 0(r0)
        bne  r4, r0, more
        ld   r5, 64(r0)
        bne  r5, r0, got
        st   r0, 0(r0)
        jmp  more
got:    ld   r3, 96(r0)
        st   r0, 64(r0)         ; the box is empty
        st   r0, 0(r0)
        add  r7, r7, r3
        st   r7, 0(r6)
        addi r6, r6, 4
        addi r2, r2, -1
        bne  r2, r0, more
        show r7
        halt
