; A watch of the block at 96, with logs that are joined late. The schedule of 1 picks the boards 0, 1, 0, 0 and 1.
;
;   board 0 loads the word at 64, on the bus: entries 1 to 7
;   board 1 loads the word at 96, on the bus: entries 8 to 11
;   board 0 loads its word again, and halts: the hit stands in its log
;   board 1 stores to its word, on the bus. Board 0's log is joined first, so its hit is entry 12. The page is not dirty yet: 13 is the
;   fault, 14 claims the block of the page's entry, since both boards have it, 15 sets the dirty bit there, 16 is the refresh of the
;   line's copy of it, and 17 claims the block at 96. Here the watch stops the run. The step goes on to its end: 18 is the store.
;
; Board 1 has not halted, and is running.

.page 0 0 rw

.board
        ld   r1, 64(r0)
        ld   r1, 64(r0)
        halt

.board
        ld   r1, 96(r0)
        st   r1, 96(r0)
        halt
