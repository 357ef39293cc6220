; Exercise of lesson 3: two arrays whose blocks have the same line push each other out.
;
; Four words are copied from 64 to another place, in a cache of 16 lines. As it is, each word behind the first costs two fills and a write-back.
; Choose the place in r2, within page 0, so that both blocks stay in the cache and nothing is written back. Change nothing else.
;
; $ run --lines 16
; board 0 halted retired 33
; shown 0 10
; loads 8
; stores 4
; fills 4       ; of the root entry, of the page's entry, and of each array
; claims 1
; writebacks 0

.page 0 0 rw
.word 0 64 1
.word 0 68 2
.word 0 72 3
.word 0 76 4

.board
        li   r1, 64             ; from here
        li   r2, 576            ; to here: to be changed
        li   r4, 80
again:  ld   r3, 0(r1)
        st   r3, 0(r2)
        ld   r3, 0(r2)          ; reads it again, and adds it up
        add  r5, r5, r3
        addi r1, r1, 4
        addi r2, r2, 4
        bne  r1, r4, again
        show r5                 ; 3 + 4 * 7 + 2 = 33 instructions
        halt
