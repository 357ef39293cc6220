; Board 0 stores to x and to y; board 1 stores to y, and loads x. Shown are the load, and y in the end.
;
; Not allowed is 0 2: with 2 in y, the store of board 1 came behind both of board 0, and the load reads 1.
;
; allowed 0 1
; allowed 1 1
; allowed 1 2

.page 0 0 rw                    ; 64: x; 96: y; 128 and 160: the boards are done

.board
        li   r1, 1
        st   r1, 64(r0)
        st   r1, 96(r0)
        st   r1, 128(r0)
        halt

.board
        li   r1, 1
        li   r2, 2
        st   r2, 96(r0)
        ld   r3, 64(r0)
        show r3
        st   r1, 160(r0)
        halt

.board                          ; what memory has in the end
wait:   ld   r3, 128(r0)
        beq  r3, r0, wait
last:   ld   r3, 160(r0)
        beq  r3, r0, last
        ld   r4, 96(r0)
        show r4
        halt
