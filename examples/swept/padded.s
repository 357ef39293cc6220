; Two boards count, each in a word of its own, and the words stand in two blocks. Swept over starts, beside shared.s, where
; they stand in one.
;
; Each board brings its block in once and claims it once, and then counts in its cache.
.page 0 0 rw

.board
        li   r2, 4              ; times that are left
next:   ld   r1, 64(r0)
        addi r1, r1, 1
        st   r1, 64(r0)
        addi r2, r2, -1
        bne  r2, r0, next
        show r1
        halt

.board
        li   r2, 4
next:   ld   r1, 96(r0)         ; a word of the next block
        addi r1, r1, 1
        st   r1, 96(r0)
        addi r2, r2, -1
        bne  r2, r0, next
        show r1
        halt
