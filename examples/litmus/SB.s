; Store buffering: each board stores to a word of its own, and loads the other one. Shown are the two loads.
;
; Not allowed is 0 0: the store that comes second has the other one before it, and the load behind it reads 1.
;
; allowed 0 1
; allowed 1 0
; allowed 1 1

.page 0 0 rw                    ; 64: x; 96: y

.board
        li   r1, 1
        st   r1, 64(r0)
        ld   r3, 96(r0)
        show r3
        halt

.board
        li   r1, 1
        st   r1, 96(r0)
        ld   r3, 64(r0)
        show r3
        halt
