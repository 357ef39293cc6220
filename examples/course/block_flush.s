; The blocks of a page that leaves its frame leave the caches first: one transaction BlockFlush for each, in the order of the lines. An
; owned block is written to the frame.
;
; There is one frame, so each page pushes the other out. Page 0 has two blocks in the cache when it leaves: that at 64, which the board owns,
; and that at 96. Page 1 has one. The 5 comes back with page 0.
;
; $ run --frames 1
; board 0 halted retired 8
; shown 0 5
; missing 3
; dirty 1
; fills 6       ; root entry, pages' entries, 64, 96, 1040 in hexadecimal, and 64 again
; claims 1
; writebacks 0
; flushes 3
; leaves 2
; outs 2
; ins 3
;> in 0 0000000000 65
;> store 0 0000000040 00000005
;> load 0 0000000060 00000000
;> fault 0 missing load 0000001040
;> clearref 0 0000000000
;> leave 0 0000000000
;> flush 0 0 0000000040
;> flush 0 0 0000000060
;> out 0 0000000000
;> in 0 0000001000 65
;> load 0 0000001040 00000000
;> flush 0 0 0000001040
;> out 0 0000001000
;> in 0 0000000000 65
;> load 0 0000000040 00000005

.page 0 0 rw
.page 0 1 rw

.board
        li   r1, 5
        li   r4, 4096           ; page 1
        st   r1, 64(r0)
        ld   r2, 96(r0)
        ld   r3, 64(r4)         ; page 0 goes out
        ld   r5, 64(r0)         ; page 1 goes out, and page 0 comes back
        show r5
        halt
