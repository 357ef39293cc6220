; Walks over 16 KB four times, and loads one word of each of its 512 blocks. Swept over `--lines`.
;
; A block stands on the line that is its number modulo the number of lines. With fewer lines than 512 each block has been
; pushed out by another when it is wanted again, so all 4 * 512 loads miss; with 512 lines or more the walk fits, and 512
; loads miss for the first time. One more misses there: block 0 shares line 0 with the block of the page-table entries.
.page 0 0 ro
.page 0 1 ro
.page 0 2 ro
.page 0 3 ro

.board
        li   r2, 4              ; walks that are left
walk:   li   r1, 0              ; the next block's address
        li   r3, 512            ; blocks that are left
next:   ld   r4, 0(r1)
        addi r1, r1, 32
        addi r3, r3, -1
        bne  r3, r0, next
        addi r2, r2, -1
        bne  r2, r0, walk
        halt
