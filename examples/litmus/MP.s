; Message passing: board 0 stores an item to x, and then 1 to y as a sign that it is there; board 1 loads the sign, and then the item. Shown are
; the sign and the item.
;
; Not allowed is 1 0: a sign without its item.
;
; allowed 0 0
; allowed 0 1
; allowed 1 1

.page 0 0 rw                    ; 64: x; 96: y

.board
        li   r1, 1
        st   r1, 64(r0)
        st   r1, 96(r0)
        halt

.board
        ld   r3, 96(r0)
        ld   r4, 64(r0)
        show r3
        show r4
        halt
