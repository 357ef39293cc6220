; Exercise of lesson 1: eight words of one block are added up, and their sum is stored in the block behind.
;
; Complete the loop, so that it loads each of the words at 64, 68, .. 92 once and adds it to r3. Leave the rest as it is.
;
; board 0 halted
; shown 0 36
; loads 8
; stores 1
; dirty 1
; fills 4       ; of the root entry, of the page's entry, at 64 and at 96
; claims 1
; refreshes 0

.page 0 0 rw
.word 0 64 1
.word 0 68 2
.word 0 72 3
.word 0 76 4
.word 0 80 5
.word 0 84 6
.word 0 88 7
.word 0 92 8

.board
        li   r1, 64             ; where the next word stands
        li   r2, 8              ; how many words are left
        li   r3, 0              ; the sum
again:                          ; to be completed: load, add, go on by 4 bytes
        addi r2, r2, -1
        bne  r2, r0, again
        st   r3, 96(r0)
        show r3
        halt
