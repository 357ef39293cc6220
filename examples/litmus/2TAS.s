; Two test-and-sets of one word. Shown are the old words that they read.
;
; One is first and reads 0, and the other reads 1.
;
; allowed 0 1
; allowed 1 0

.page 0 0 rw                    ; 64: the word

.board
        tas  r3, 64(r0)
        show r3
        halt

.board
        tas  r3, 64(r0)
        show r3
        halt
