; Two boards store to both words, in opposite orders, each 1 first and then 2. Shown are x and y in the end.
;
; Not allowed is 1 1: one of the two stores of 2 is the last of all.
;
; allowed 1 2
; allowed 2 1
; allowed 2 2

.page 0 0 rw                    ; 64: x; 96: y; 128 and 160: the boards are done

.board
        li   r1, 1
        li   r2, 2
        st   r1, 64(r0)
        st   r2, 96(r0)
        st   r1, 128(r0)
        halt

.board
        li   r1, 1
        li   r2, 2
        st   r1, 96(r0)
        st   r2, 64(r0)
        st   r1, 160(r0)
        halt

.board                          ; what memory has in the end
wait:   ld   r3, 128(r0)
        beq  r3, r0, wait
last:   ld   r3, 160(r0)
        beq  r3, r0, last
        ld   r4, 64(r0)
        show r4
        ld   r4, 96(r0)
        show r4
        halt
