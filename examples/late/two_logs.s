; Two boards load the same word twice. The schedule of 0 picks the boards 1, 0, 1, 0, 1 and 0. The first load of each takes a
; turn on the bus, and the second hits: board 1's is done first, and each goes into its board's own log.
;
; With `--late` the logs are joined at the end, in the order of the boards, so board 0's hit stands before board 1's. Without it
; board 1's stands before board 0's. Both orders are lawful: neither board writes what the other reads.

.page 0 0 ro

.board
        ld   r1, 64(r0)
        ld   r1, 64(r0)
        halt

.board
        ld   r1, 64(r0)
        ld   r1, 64(r0)
        halt
