; A board that stores to a page which may only be read, and one that goes on beside it: status 1, for not every board halted.
;
;   board 0: `ld` is done, and `st` is not: 1 retired. The byte at 64 of segment 0 is the global address 40 in hexadecimal.
;   board 1: li, show and halt: 3 retired.

.page 0 0 ro            ; page 0 of segment 0 may only be read
.word 0 64 7

.board
        ld   r1, 64(r0)
        st   r1, 64(r0)         ; ends the board
        halt

.board
        li   r1, 5
        show r1
        halt
