; A simulator with a state for blocks that are clean and nowhere else (MESI) writes them without a word on the bus. Here a block that was
; filled for reading is UnOwned, whoever else has it, and has to be claimed before it is written.
.page 0 0 rw
.board
        ld   r1, 64(r0)
        ld   r2, 68(r0)
        st   r1, 64(r0)
        halt
