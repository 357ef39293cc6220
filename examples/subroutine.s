; A loop that calls a subroutine: 5 + 4 + 3 + 2 + 1.
;
;   r1   the number that is added next
;   r2   the sum so far
;   r15  where the subroutine goes back to
;
; The subroutine is called 5 times. Each time round the loop completes 5 instructions: call, add, jr, addi and bne. Before
; the loop there are 2, and behind it 2: 2 + 5 * 5 + 2 = 29 retired. The call stands at place 2, so r15 ends as 3.

.board
        li   r1, 5
        li   r2, 0
again:  call r15, plus          ; r15 becomes the next place, and the subroutine begins
        addi r1, r1, -1
        bne  r1, r0, again      ; register 0 is always 0
        show r2                 ; 15
        halt

plus:   add  r2, r2, r1
        jr   r15                ; goes to the place in r15
