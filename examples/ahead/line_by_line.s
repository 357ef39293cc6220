; Two pages fill both data frames. The next turn on the bus finds no frame free, and has page 0 leave ahead of need; each of the
; two turns behind it flushes one of its two lines, and the second puts it out.
.page 0 0 ro
.page 0 1 ro

.board
        li   r1, 4096           ; page 1
        ld   r2, 64(r0)         ; page 0 comes in
        ld   r2, 96(r0)         ; a second line of it
        ld   r2, 64(r1)         ; page 1 comes in: no frame is free any more
        ld   r2, 96(r1)         ; the clock looks at both pages and has page 0 leave; page 1 is referenced again
        ld   r2, 128(r1)        ; one line of page 0 is flushed
        ld   r2, 160(r1)        ; and the other, and page 0 goes out
        halt
