; Board 0 stores 2 to x, and then to y; board 1 loads y, and then stores 1 to x. Shown are the load, and x in the end.
;
; Not allowed is 1 2: where the load reads 1, the store of 1 to x comes behind that of 2.
;
; allowed 0 1
; allowed 0 2
; allowed 1 1

.page 0 0 rw                    ; 64: x; 96: y; 128 and 160: the boards are done

.board
        li   r1, 1
        li   r2, 2
        st   r2, 64(r0)
        st   r1, 96(r0)
        st   r1, 128(r0)
        halt

.board
        li   r1, 1
        ld   r3, 96(r0)
        st   r1, 64(r0)
        show r3
        st   r1, 160(r0)
        halt

.board                          ; what memory has in the end
wait:   ld   r3, 128(r0)
        beq  r3, r0, wait
last:   ld   r3, 160(r0)
        beq  r3, r0, last
        ld   r4, 64(r0)
        show r4
        halt
