; A board may complete as many instructions as its budget, and no more: one that goes round for ever is spent. A board that halts with
; its last one is not.
;
; $ run --budget 9
; board 0 spent retired 9
; regs 0 00000000 00000005 00000000 00000000 00000000 00000000 00000000 00000000 00000000 00000000 00000000 00000000 00000000 00000000 00000000 00000000
; board 1 halted retired 9
; shown 1 4
; $ run --budget 8
; board 0 spent retired 8
; board 1 spent retired 8
; shown 1 4

.board
again:  addi r1, r1, 1          ; completed first, third, .. ninth: 5 times of 9
        jmp  again

.board
        li   r1, 3
        li   r2, 1
        li   r3, 0
        add  r3, r3, r1
        add  r3, r3, r2
        show r3
        nop
        nop
        halt
