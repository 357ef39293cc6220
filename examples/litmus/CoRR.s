; Coherence of two loads: board 0 stores to x; board 1 loads it twice. Shown are the two loads.
;
; Not allowed is 1 0: what was there is not gone again.
;
; allowed 0 0
; allowed 0 1
; allowed 1 1

.page 0 0 rw                    ; 64: x

.board
        li   r1, 1
        st   r1, 64(r0)
        halt

.board
        ld   r3, 64(r0)
        ld   r4, 64(r0)
        show r3
        show r4
        halt
