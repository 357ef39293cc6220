; Belady's anomaly: with one frame more, more pages come in.
;
; The pages 1 2 3 4 1 2 5 1 2 3 4 5 are used in this order, each time another block, so that each access misses and its page is referenced. With
; three frames nine pages come in: the 1 2 right behind 5 are found, and so is the last 5. With four frames the 1 2 right before 5 are found.
; From there each access pushes out a page, and the first five of these six the one that is wanted next: ten pages come in.
;
; The clock goes as a queue here: whenever a frame is wanted, the page that came in first leaves.
;
;   three frames   4 clears 1 2 3; 5 clears 4 1 2; the 1 and 2 behind it set their bits again; 3 clears 1 2 5; the last 5 sets its bit
;   four frames    5 clears 1 2 3 4; the second 4 clears 5 1 2 3
;
; $ run --frames 3
; board 0 halted retired 18
; missing 9
; reference 3
; ins 9
; outs 6
; setrefs 3
; clearrefs 9
; $ run --frames 4
; board 0 halted retired 18
; missing 10
; reference 0
; ins 10
; outs 6
; setrefs 0
; clearrefs 8

.page 0 1 ro
.page 0 2 ro
.page 0 3 ro
.page 0 4 ro
.page 0 5 ro

.board
        li   r1, 4096           ; register N has the first byte of page N
        li   r2, 8192
        li   r3, 12288
        li   r4, 16384
        li   r5, 20480
        ld   r6, 32(r1)
        ld   r6, 64(r2)
        ld   r6, 96(r3)
        ld   r6, 128(r4)
        ld   r6, 160(r1)
        ld   r6, 192(r2)
        ld   r6, 224(r5)
        ld   r6, 256(r1)
        ld   r6, 288(r2)
        ld   r6, 320(r3)
        ld   r6, 352(r4)
        ld   r6, 384(r5)
        halt
