; From a read to a write and on: board 0 stores to x; board 1 loads x, and then y; board 2 stores to y, and then loads x. Shown are the three loads.
;
; Not allowed is 1 0 0: x had been stored before y was, and board 2 would not see it.
;
; allowed 0 0 0
; allowed 0 0 1
; allowed 0 1 0
; allowed 0 1 1
; allowed 1 0 1
; allowed 1 1 0
; allowed 1 1 1

.page 0 0 rw                    ; 64: x; 96: y

.board
        li   r1, 1
        st   r1, 64(r0)
        halt

.board
        ld   r3, 64(r0)
        ld   r4, 96(r0)
        show r3
        show r4
        halt

.board
        li   r1, 1
        st   r1, 96(r0)
        ld   r3, 64(r0)
        show r3
        halt
