; Loads 41, adds 1, and stores the sum.
.page 0 0 rw            ; page 0 of segment 0 may be read and written
.word 0 64 41           ; its word at byte 64 is 41 at first

.board
        ld   r1, 64(r0)         ; register 0 is always 0, so this is the word at address 64
        addi r1, r1, 1          ; 42, which is 2a in hexadecimal
        st   r1, 64(r0)
        halt                    ; 4 instructions are retired, this one among them
