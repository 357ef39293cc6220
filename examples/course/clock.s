; The clock gives a page that was used again a second chance: an older page stays, and a younger one leaves.
;
; Three frames have the pages 0, 1 and 2, in this order. Page 3 is wanted: all three are referenced, so the clock clears their bits, comes round to
; page 0, and that one leaves. Then another block of page 1 is used, and its bit is set again. Page 4 is wanted: the hand stands at page 1,
; clears its bit and passes; page 2 is not referenced, and leaves, though page 1 is in its frame for longer.
;
; $ run --frames 3
; board 0 halted retired 11
; missing 5
; reference 1
; fills 8       ; root entry, pages' entries, and six blocks of the pages
; flushes 2
; leaves 2
; outs 2
; ins 5
; setrefs 1
; clearrefs 4
;> in 0 0000000000 65
;> in 0 0000001000 66
;> in 0 0000002000 67
;> leave 0 0000000000
;> in 0 0000003000 65
;> setref 0 0000001000
;> clearref 0 0000001000
;> leave 0 0000002000
;> in 0 0000004000 67
;= 0 leave 0 0000001000

.page 0 0 ro
.page 0 1 ro
.page 0 2 ro
.page 0 3 ro
.page 0 4 ro

.board
        li   r1, 4096           ; page 1
        li   r2, 8192           ; page 2
        li   r3, 12288          ; page 3
        li   r4, 16384          ; page 4
        ld   r5, 64(r0)
        ld   r5, 64(r1)
        ld   r5, 64(r2)
        ld   r5, 64(r3)         ; page 0 leaves
        ld   r5, 96(r1)         ; page 1 is used again
        ld   r5, 64(r4)         ; page 2 leaves
        halt
