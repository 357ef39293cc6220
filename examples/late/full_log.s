; A board loads a word 1100 times. The first load takes a turn on the bus, and the next 1024 hit and fill the board's log. The load
; behind them finds it full, and takes a turn on the bus, which joins the log and then does the load. The 74 that are left hit
; again, and are joined at the end.
;
; It completes `li`, 1100 times three instructions, and `halt`: 3302. It fetches three blocks (the root entry's, the page's entry's
; and the word's) and claims that of the page's entry, and one page comes in.

.page 0 0 ro

.board
        li   r2, 1100
again:  ld   r1, 64(r0)
        addi r2, r2, -1
        bne  r2, r0, again
        halt
