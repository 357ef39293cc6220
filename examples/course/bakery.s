; Lamport's bakery algorithm: boards keep each other out by loads and stores alone, and no word is written by two of them. A board draws a number
; above all that it sees, and waits for each board that is drawing, and for each one with a smaller number, or with the same and a smaller place.
;
; Three boards enter twice each and add 1 to the counter. Board 3 waits for them, and shows the counter. One program serves the three boards, but
; for its first line: r7 is the board's number.
;
; $ sched 0
; board 0 halted
; board 1 halted
; board 2 halted
; board 3 halted
; shown 3 6
; $ sched 1
; board 0 halted
; board 1 halted
; board 2 halted
; board 3 halted
; shown 3 6
; $ sched 2
; board 0 halted
; board 1 halted
; board 2 halted
; board 3 halted
; shown 3 6

.page 0 0 rw                    ; 0, 32, 64: board 0, 1, 2 is drawing; 96, 128, 160: their numbers, 0 outside; 192: the counter; 224, 256, 288: done

.board
        li   r7, 0
        li   r1, 1
        li   r2, 2              ; how many times are left
        li   r3, 5
        shl  r8, r7, r3         ; 32 times the board's number: where its own words stand
enter:  st   r1, 0(r8)          ; it is drawing
        li   r4, 0              ; the greatest number that it sees
        li   r9, 0              ; 32 times a board's number: 0, 32, 64
        li   r10, 96
most:   ld   r5, 96(r9)
        bge  r4, r5, lower
        add  r4, r5, r0
lower:  addi r9, r9, 32
        bne  r9, r10, most
        addi r4, r4, 1
        st   r4, 96(r8)         ; its number
        st   r0, 0(r8)          ; it has drawn
        li   r9, 0
other:  beq  r9, r8, next       ; itself
draw:   ld   r5, 0(r9)
        bne  r5, r0, draw       ; that board is drawing
line:   ld   r5, 96(r9)
        beq  r5, r0, next       ; that board is outside
        blt  r5, r4, line       ; that board has a smaller number
        bne  r5, r4, next
        blt  r9, r8, line       ; the same number, and a smaller place
next:   addi r9, r9, 32
        bne  r9, r10, other
        ld   r6, 192(r0)
        addi r6, r6, 1
        st   r6, 192(r0)
        st   r0, 96(r8)         ; it is outside again
        addi r2, r2, -1
        bne  r2, r0, enter
        st   r1, 224(r8)
        halt

.board
        li   r7, 1
        li   r1, 1
        li   r2, 2
        li   r3, 5
        shl  r8, r7, r3
enter:  st   r1, 0(r8)
        li   r4, 0
        li   r9, 0
        li   r10, 96
most:   ld   r5, 96(r9)
        bge  r4, r5, lower
        add  r4, r5, r0
lower:  addi r9, r9, 32
        bne  r9, r10, most
        addi r4, r4, 1
        st   r4, 96(r8)
        st   r0, 0(r8)
        li   r9, 0
other:  beq  r9, r8, next
draw:   ld   r5, 0(r9)
        bne  r5, r0, draw
line:   ld   r5, 96(r9)
        beq  r5, r0, next
        blt  r5, r4, line
        bne  r5, r4, next
        blt  r9, r8, line
next:   addi r9, r9, 32
        bne  r9, r10, other
        ld   r6, 192(r0)
        addi r6, r6, 1
        st   r6, 192(r0)
        st   r0, 96(r8)
        addi r2, r2, -1
        bne  r2, r0, enter
        st   r1, 224(r8)
        halt

.board
        li   r7, 2
        li   r1, 1
        li   r2, 2
        li   r3, 5
        shl  r8, r7, r3
enter:  st   r1, 0(r8)
        li   r4, 0
        li   r9, 0
        li   r10, 96
most:   ld   r5, 96(r9)
        bge  r4, r5, lower
        add  r4, r5, r0
lower:  addi r9, r9, 32
        bne  r9, r10, most
        addi r4, r4, 1
        st   r4, 96(r8)
        st   r0, 0(r8)
        li   r9, 0
other:  beq  r9, r8, next
draw:   ld   r5, 0(r9)
        bne  r5, r0, draw
line:   ld   r5, 96(r9)
        beq  r5, r0, next
        blt  r5, r4, line
        bne  r5, r4, next
        blt  r9, r8, line
next:   addi r9, r9, 32
        bne  r9, r10, other
        ld   r6, 192(r0)
        addi r6, r6, 1
        st   r6, 192(r0)
        st   r0, 96(r8)
        addi r2, r2, -1
        bne  r2, r0, enter
        st   r1, 224(r8)
        halt

.board
        li   r10, 96
wait:   ld   r3, 224(r9)
        beq  r3, r0, wait
        addi r9, r9, 32
        bne  r9, r10, wait
        ld   r4, 192(r0)
        show r4
        halt
