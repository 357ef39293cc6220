; Goes over four pages three times, and adds 1 to a word of each. Swept over `--frames`.
;
; With fewer frames than four each page has gone out when it is wanted again, and it was written, so it goes out to its swap
; slot and comes back: 12 pages come in. With four frames each page comes in once.
.page 0 0 rw
.page 0 1 rw
.page 0 2 rw
.page 0 3 rw

.board
        li   r5, 4096           ; the bytes of a page
        li   r2, 3              ; rounds that are left
round:  li   r1, 0              ; the next page's address
        li   r3, 4              ; pages that are left
next:   ld   r4, 64(r1)
        addi r4, r4, 1
        st   r4, 64(r1)
        add  r1, r1, r5
        addi r3, r3, -1
        bne  r3, r0, next
        addi r2, r2, -1
        bne  r2, r0, round
        show r4                 ; 3: what was written came back
        halt
