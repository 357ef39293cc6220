; Peterson's algorithm: two boards keep each other out by plain loads and stores. Each enters twice and adds 1 to the counter.
;
;   word at 0    1 where board 0 wants to enter
;   word at 32   1 where board 1 wants to enter
;   word at 64   the board that goes first while both want to: each stores the other's number, so the one that stored last waits
;   word at 96   the counter
;
; How often a board looks depends on the order of the steps. The retired numbers are told for the schedule of 1. Each board
; completes 2 `li`, 8 instructions for each time that it enters (2 `st` before, and ld, addi, st, st, addi, bne inside), and
; `halt`: 2 + 2 * 8 + 1 = 19. What it completes while it looks whether it may enter comes on top: a look that fails has 4
; instructions, one that finds the other's word 0 has 2, and one that finds the other's turn over has 4.
;
;   board 0: at first one look of 2; the second time two fail, then one of 2: 19 + 2 + 10 = 31
;   board 1: at first one look of 4 (board 0 has said last that it waits); the second time one of 2: 19 + 4 + 2 = 25
;
; Board 0 stores 1 and 3 in the counter, board 1 stores 2 and 4. So r4 ends as 3 and as 4.

.page 0 0 rw

.board
        li   r1, 1
        li   r2, 2              ; how many times are left
enter:  st   r1, 0(r0)          ; board 0 wants to enter
        st   r1, 64(r0)         ; and lets board 1 go first
wait:   ld   r3, 32(r0)
        beq  r3, r0, inside     ; board 1 does not want to
        ld   r3, 64(r0)
        beq  r3, r1, wait       ; it is board 1's turn still
inside: ld   r4, 96(r0)
        addi r4, r4, 1
        st   r4, 96(r0)
        st   r0, 0(r0)          ; board 0 is out again
        addi r2, r2, -1
        bne  r2, r0, enter
        halt

.board
        li   r1, 1
        li   r2, 2
enter:  st   r1, 32(r0)         ; board 1 wants to enter
        st   r0, 64(r0)         ; and lets board 0 go first
wait:   ld   r3, 0(r0)
        beq  r3, r0, inside
        ld   r3, 64(r0)
        beq  r3, r0, wait
inside: ld   r4, 96(r0)
        addi r4, r4, 1
        st   r4, 96(r0)
        st   r0, 32(r0)
        addi r2, r2, -1
        bne  r2, r0, enter
        halt
