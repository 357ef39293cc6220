; An owned block whose line is wanted for another one: the transaction WriteBack puts it into memory first.
;
; A cache of 16 lines has one line for the blocks at 64 and at 576, which is 512 bytes on: line 2 of 0 to 15. Board 0 owns the first when it loads
; from the second, so it writes the first back. The last load finds it in memory. The block that is replaced there was only read, and
; nothing is written.
;
; $ run --lines 16
; board 0 halted retired 6
; shown 0 5
; fills 5       ; root entry, page's entry, 64 for writing, 576, and 64 for reading
; writebacks 1
; claims 1      ; the block of the page's entry
;> fill 0 data write 0000000040
;> store 0 0000000040 00000005
;> writeback 0 0000000040
;> fill 0 data read 0000000240
;> load 0 0000000240 00000000
;> fill 0 data read 0000000040
;> load 0 0000000040 00000005

.page 0 0 rw

.board
        li   r1, 5
        st   r1, 64(r0)
        ld   r2, 576(r0)
        ld   r3, 64(r0)
        show r3
        halt
