; Three pages share two data frames, and a page leaves ahead of need while the board goes on.
.page 0 0 ro
.page 0 1 ro
.page 0 2 ro

.board
        li   r1, 4096           ; page 1
        li   r2, 8192           ; page 2
        ld   r3, 64(r0)         ; page 0 comes in
        ld   r3, 64(r1)         ; page 1 comes in: no frame is free any more
        ld   r3, 64(r2)         ; page 0 leaves ahead of need, its line is flushed and it goes out for page 2, which comes in
        ld   r3, 64(r1)         ; the line is there: no turn on the bus
        ld   r3, 96(r1)         ; page 1 leaves ahead of need; it is the very page that is used, and goes out and comes in again
        halt
