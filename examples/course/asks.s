; What a board asks of the bus, by the state of the block in its own cache: six of the eight cells of the table. The two of a block that is
; owned and not alone are in asks_shared.s.
;
;   Invalid, read             ReadShared: a fill for reading, and the block is UnOwned
;   UnOwned, read             nothing
;   UnOwned, write            Claim, and the block is OwnedExclusive
;   OwnedExclusive, read      nothing
;   OwnedExclusive, write     nothing
;   Invalid, write            ReadOwned: a fill for writing
;
; board 0 halted retired 8
; loads 3
; stores 3
; fills 4       ; root entry, page's entry, and the blocks at 64 and 96
; claims 2      ; the page's entry and the block at 64
; refreshes 1   ; the block at 64 was filled before the page was dirty
; missing 1
; dirty 1
;> fill 0 data read 0000000040
;> load 0 0000000040 00000000
;> load 0 0000000040 00000000
;> claim 0 0000000040
;> store 0 0000000040 00000001
;> load 0 0000000040 00000001
;> store 0 0000000040 00000001
;> fill 0 data write 0000000060
;> store 0 0000000060 00000001

.page 0 0 rw

.board
        li   r1, 1
        ld   r2, 64(r0)         ; Invalid, read
        ld   r2, 64(r0)         ; UnOwned, read
        st   r1, 64(r0)         ; UnOwned, write
        ld   r2, 64(r0)         ; OwnedExclusive, read
        st   r1, 64(r0)         ; OwnedExclusive, write
        st   r1, 96(r0)         ; Invalid, write
        halt
