; A line keeps a copy of its page's dirty bit. A block that came in while the page was clean has a clear copy, and the first write to it looks at the
; page's entry again: a refresh sets the copy.
;
; The blocks at 64 and 96 come in for reading. The first store finds the page clean: a fault sets the entry's dirty bit, and a refresh the copy of the
; line at 64. The second store finds its own line's copy clear and the entry dirty: a refresh, and no fault. The block at 128 comes in
; behind that, with its copy set, and needs none.
;
; board 0 halted retired 8
; stores 3
; dirty 1
; setdirties 1
; refreshes 2
; fills 5       ; root entry, page's entry, and the three blocks
; claims 4      ; page's entry, and the three blocks
;> fault 0 dirty store 0000000040
;> setdirty 0 0000000000
;> refresh 0 0000000040
;> claim 0 0000000040
;> store 0 0000000040 00000001
;> refresh 0 0000000060
;> claim 0 0000000060
;> store 0 0000000060 00000001
;> fill 0 data read 0000000080
;> claim 0 0000000080
;> store 0 0000000080 00000001
;= 0 refresh 0 0000000080

.page 0 0 rw

.board
        li   r1, 1
        ld   r2, 64(r0)
        ld   r2, 96(r0)
        st   r1, 64(r0)
        st   r1, 96(r0)
        ld   r2, 128(r0)
        st   r1, 128(r0)
        halt
