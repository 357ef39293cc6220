; Load buffering: each board loads a word, and then stores to the one that the other board loads. Shown are the two loads.
;
; Not allowed is 1 1: each load would have read what is stored only behind the other.
;
; allowed 0 0
; allowed 0 1
; allowed 1 0

.page 0 0 rw                    ; 64: x; 96: y

.board
        li   r1, 1
        ld   r3, 64(r0)
        st   r1, 96(r0)
        show r3
        halt

.board
        li   r1, 1
        ld   r3, 96(r0)
        st   r1, 64(r0)
        show r3
        halt
