; The whole life of a page: it comes in, is written, is passed by the clock, leaves and goes out with what was written, and comes back.
;
; There are two frames, 65 and 66, for three pages.
;
;   1  page 0 comes into 65, and is written: its dirty bit is set
;   2  page 1 comes into 66
;   3  page 2 is wanted. The clock clears the referenced bits of 0 and 1, comes round, and page 0 leaves: its block is flushed into the frame, the
;      frame is written to the swap slot, since the page is dirty, and page 2 comes into 65
;   4  another block of page 1 is wanted, whose referenced bit is clear: it is set
;   5  page 0 is wanted. The clock clears the bits of 1 and 2, comes round, and page 1 leaves with its two blocks. It is not dirty, and is not
;      written. Page 0 comes back into 66, with the 5
;
; $ run --frames 2
; board 0 halted retired 10
; shown 0 5
; missing 4
; reference 1
; dirty 1
; fills 7       ; root entry, pages' entries, and five blocks of the pages
; flushes 3
; leaves 2
; outs 2
; ins 4
; setrefs 1
; setdirties 1
; clearrefs 4
;> in 0 0000000000 65
;> setdirty 0 0000000000
;> store 0 0000000040 00000005
;> in 0 0000001000 66
;> clearref 0 0000000000
;> clearref 0 0000001000
;> leave 0 0000000000
;> flush 0 0 0000000040
;> out 0 0000000000
;> in 0 0000002000 65
;> fault 0 reference load 0000001060
;> setref 0 0000001000
;> clearref 0 0000001000
;> clearref 0 0000002000
;> leave 0 0000001000
;> flush 0 0 0000001040
;> flush 0 0 0000001060
;> out 0 0000001000
;> in 0 0000000000 66
;> load 0 0000000040 00000005

.page 0 0 rw
.page 0 1 rw
.page 0 2 rw

.board
        li   r1, 5
        li   r4, 4096           ; page 1
        li   r5, 8192           ; page 2
        st   r1, 64(r0)
        ld   r2, 64(r4)
        ld   r2, 64(r5)
        ld   r2, 96(r4)
        ld   r3, 64(r0)
        show r3
        halt
