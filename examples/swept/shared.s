; False sharing: two boards count, each in a word of its own, and both words stand in one block. Swept over starts, beside
; padded.s, which is the same but for one address.
;
; Neither board ever reads what the other one writes. Yet a store takes the whole block from the other board, which has to
; bring it in again before its next load.
.page 0 0 rw

.board
        li   r2, 4              ; times that are left
next:   ld   r1, 64(r0)
        addi r1, r1, 1
        st   r1, 64(r0)
        addi r2, r2, -1
        bne  r2, r0, next
        show r1
        halt

.board
        li   r2, 4
next:   ld   r1, 68(r0)         ; the next word of the same block
        addi r1, r1, 1
        st   r1, 68(r0)
        addi r2, r2, -1
        bne  r2, r0, next
        show r1
        halt
