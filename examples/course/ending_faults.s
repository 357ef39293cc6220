; The faults that end a board, one a board. Nothing is changed by the access, its instruction is not counted, and the other boards go on.
;
;   0  66 is no multiple of 4
;   1  page 5 is not declared
;   2  segment 1 has no page at all
;   3  page 1 may only be read, and is stored to
;   4  page 2 allows nothing, and is loaded from
;   5  neither is 20482 a multiple of 4, nor is page 5 declared: align comes first
;   6  halts
;
; The pages 1 and 2 are on swap. What they allow is asked when they have come in, so both are missing before. A swap that fails ends a board,
; too, but the program's own is in memory and never does.
;
; board 0 faulted align 0000000042 retired 0
; board 1 faulted unmapped 0000005000 retired 1
; board 2 faulted unmapped 0040000040 retired 1
; board 3 faulted protection 0000001040 retired 1
; board 4 faulted protection 0000002040 retired 1
; board 5 faulted align 0000005002 retired 1
; board 6 halted retired 3
; shown 6 7
; align 2
; unmapped 2
; protection 2
; missing 3     ; of the boards 3, 4 and 6
; stores 0

.page 0 0 ro
.page 0 1 ro
.page 0 2 none
.word 0 64 7

.board
        ld   r1, 66(r0)
        halt

.board
        li   r2, 20480
        ld   r1, 0(r2)
        halt

.board
        lih  r2, 16384          ; r2 is 40000000 in hexadecimal: the first byte of segment 1
        ld   r1, 64(r2)
        halt

.board
        li   r2, 4096
        st   r2, 64(r2)
        halt

.board
        li   r2, 8192
        ld   r1, 64(r2)
        halt

.board
        li   r2, 20480
        ld   r1, 2(r2)
        halt

.board
        ld   r1, 64(r0)
        show r1
        halt
