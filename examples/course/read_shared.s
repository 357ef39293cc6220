; A load of a block that the board lacks: the transaction ReadShared brings it into the cache, for reading.
;
; Two boards load the same word. Each fetches three blocks: that of the root entry, that of the page's entry, and the word's. The board that
; comes first finds the page on swap, too. It has the page brought in, and claims the block of the page's entry to change it. Which one
; comes first changes no count.
;
; board 0 halted retired 3
; shown 0 41
; board 1 halted retired 3
; shown 1 41
; loads 2
; missing 1
; fills 6
; claims 1
; writebacks 0
; ins 1
;= 1 fill 0 data read 0000000040
;= 1 fill 1 data read 0000000040

.page 0 0 ro
.word 0 64 41

.board
        ld   r1, 64(r0)
        show r1
        halt

.board
        ld   r1, 64(r0)
        show r1
        halt
