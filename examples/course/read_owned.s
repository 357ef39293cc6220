; A store to a block that the board lacks: the transaction ReadOwned brings it into the cache, and the board owns it alone.
;
; The page is on swap at first, and is not dirty when it has come in. So the store is answered by two faults before it is done. Then
; the block is the board's own, and the load behind it needs no bus.
;
; board 0 halted retired 5
; shown 0 5
; loads 1
; stores 1
; missing 1
; dirty 1
; fills 3       ; the blocks of the root entry, of the page's entry, and of the word
; claims 1      ; the block of the page's entry
; refreshes 0   ; the line is filled when the page is dirty already
;> fill 0 root read 3fcff00000
;> fill 0 pte read 3fc0000000
;> fault 0 missing store 0000000040
;> claim 0 3fc0000000
;> in 0 0000000000 65
;> fault 0 dirty store 0000000040
;> setdirty 0 0000000000
;> fill 0 data write 0000000040
;> store 0 0000000040 00000005
;> load 0 0000000040 00000005

.page 0 0 rw

.board
        li   r1, 5
        st   r1, 64(r0)
        ld   r2, 64(r0)
        show r2
        halt
