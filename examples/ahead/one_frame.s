; With one data frame nothing is done ahead of need, whatever --ahead says: the counts are those of a run without it.
.page 0 0 rw
.page 0 1 rw

.board
        li   r2, 4096           ; page 1
        li   r1, 5
        st   r1, 64(r0)         ; page 0 comes in, and is written
        st   r1, 64(r2)         ; page 0 goes out to its swap slot, page 1 comes in
        ld   r3, 64(r0)         ; page 1 goes out, page 0 comes in again: 5
        halt
