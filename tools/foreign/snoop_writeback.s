; A simulator whose owner writes a block to memory when another board reads it. Here the owner supplies the block and keeps it, and a write-back
; has to serve the next access of the board that makes it.
.page 0 0 rw
.page 0 1 rw
.board
        st   r0, 64(r0)
        st   r0, 68(r0)
        ld   r1, 4096(r0)
        halt
.board
        ld   r1, 64(r0)
        halt
