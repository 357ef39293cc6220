; Two boards add 1 to a counter, three times each. A lock keeps them apart: the word at 0, which is 0 where the lock is free
; and 1 where it is taken. The counter is the word at 64.
;
; `tas` reads the old word and makes it 1 in one step, so only one board can find it 0.
;
; How often a board fails to take the lock depends on the order of the steps, and with it the retired numbers, and which
; board stores what. They are told for the schedule of 1. A board that finds the lock free completes 8 instructions from
; `tas` to the last `bne`; a try that fails costs 2, `tas` and `bne`.
;
;   board 0: li, 3 * 8, 4 failed tries before its second time, halt: 1 + 24 + 8 + 1 = 34
;   board 1: li, 3 * 8, 1 failed try before its first time and 2 before its second, halt: 1 + 24 + 6 + 1 = 32
;
; Board 0 stores 1, 3 and 4, board 1 stores 2, 5 and 6. So r3 ends as 4 and as 6.

.page 0 0 rw

.board
        li   r2, 3              ; how many times are left
take:   tas  r1, 0(r0)          ; r1 becomes the lock's old word
        bne  r1, r0, take       ; it was taken: try again
        ld   r3, 64(r0)
        addi r3, r3, 1
        st   r3, 64(r0)
        st   r0, 0(r0)          ; gives the lock back
        addi r2, r2, -1
        bne  r2, r0, take
        halt

.board                          ; the same program; a label belongs to its board
        li   r2, 3
take:   tas  r1, 0(r0)
        bne  r1, r0, take
        ld   r3, 64(r0)
        addi r3, r3, 1
        st   r3, 64(r0)
        st   r0, 0(r0)
        addi r2, r2, -1
        bne  r2, r0, take
        halt
