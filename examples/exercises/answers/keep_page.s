; Exercise of lesson 4: a page that is written stays in its frame, though pages are used that need frames.
;
; Five pages share three frames. As it is, page 0 is the first to leave, and comes back with the last load: six times a page comes in. Change the
; order of the four lines `ld r6` and the `st`, and put in one more load, so that page 0 never leaves. The last load stays the last.
;
; $ run --frames 3
; board 0 halted
; shown 0 5
; loads 6
; stores 1
; ins 5
; leaves 2
;= 0 leave 0 0000000000

.page 0 0 rw
.page 0 1 ro
.page 0 2 ro
.page 0 3 ro
.page 0 4 ro

.board
        li   r1, 4096           ; page 1
        li   r2, 8192           ; page 2
        li   r3, 12288          ; page 3
        li   r4, 16384          ; page 4
        li   r5, 5
        ld   r6, 64(r1)         ; page 1 comes in first
        st   r5, 64(r0)
        ld   r6, 64(r2)
        ld   r6, 64(r3)         ; all bits are cleared, and page 1 leaves
        ld   r6, 96(r0)         ; another block of page 0: its bit is set again
        ld   r6, 64(r4)         ; the hand passes page 0, and page 2 leaves
        ld   r7, 64(r0)
        show r7
        halt
