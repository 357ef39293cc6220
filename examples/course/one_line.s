; Page-table entries stand in ordinary blocks, so they compete with data for the lines of a cache. Here a word's block, the block of its page's
; entry and that of the root entry all have line 0 of 16.
;
; Each access that misses fetches all three: the root's block, then the entry's block in its place, then the word's in the place of that.
; The entry's block is owned when the store's block takes its line, for the pager has changed the entry in this cache: it is written back. So is
; the word's block when the next access begins. The access behind that finds nothing owned.
;
; $ run --lines 16
; board 0 halted retired 6
; shown 0 5
; fills 9       ; three accesses, three fills each
; writebacks 2
; claims 1
;> fill 0 root read 3fcff00000
;> fill 0 pte read 3fc0000000
;> claim 0 3fc0000000
;> setdirty 0 0000000000
;> writeback 0 3fc0000000
;> fill 0 data write 0000000000
;> store 0 0000000000 00000005
;> writeback 0 0000000000
;> fill 0 root read 3fcff00000
;> fill 0 pte read 3fc0000000
;> fill 0 data read 0000000200
;> load 0 0000000200 00000000
;> fill 0 root read 3fcff00000
;> fill 0 pte read 3fc0000000
;> fill 0 data read 0000000000
;> load 0 0000000000 00000005

.page 0 0 rw

.board
        li   r1, 5
        st   r1, 0(r0)
        ld   r2, 512(r0)
        ld   r3, 0(r0)
        show r3
        halt
