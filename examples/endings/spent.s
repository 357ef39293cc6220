; A board without an end, that may complete 7 instructions: status 1. Of the 7, the first, third, fifth and seventh are `addi`, so r1
; ends as 4.

.board
again:  addi r1, r1, 1
        jmp  again
