; Twelve boards, each with ten loads and stores over two shared pages, and no loop: every run of it ends.
; scripts/soak runs it with one frame and sixteen lines, so that the pages go out and come in all the time.

.page 0 0 rw
.page 0 1 rw

.board
li r1, 1
li r2, 4096
st r1, 0(r0)
ld r3, 4(r0)
st r1, 64(r2)
ld r4, 84(r2)
ld r5, 512(r0)
st r5, 608(r2)
ld r6, 512(r2)
st r1, 1024(r0)
ld r7, 1024(r0)
ld r8, 736(r2)
halt
.board
li r1, 2
li r2, 4096
st r1, 4(r0)
ld r3, 8(r0)
st r1, 68(r2)
ld r4, 88(r2)
ld r5, 544(r0)
st r5, 640(r2)
ld r6, 512(r2)
st r1, 1024(r0)
ld r7, 1024(r0)
ld r8, 768(r2)
halt
.board
li r1, 3
li r2, 4096
st r1, 8(r0)
ld r3, 12(r0)
st r1, 72(r2)
ld r4, 92(r2)
ld r5, 576(r0)
st r5, 672(r2)
ld r6, 512(r2)
st r1, 1024(r0)
ld r7, 1024(r0)
ld r8, 800(r2)
halt
.board
li r1, 4
li r2, 4096
st r1, 12(r0)
ld r3, 16(r0)
st r1, 76(r2)
ld r4, 96(r2)
ld r5, 608(r0)
st r5, 704(r2)
ld r6, 512(r2)
st r1, 1024(r0)
ld r7, 1024(r0)
ld r8, 832(r2)
halt
.board
li r1, 5
li r2, 4096
st r1, 16(r0)
ld r3, 20(r0)
st r1, 80(r2)
ld r4, 100(r2)
ld r5, 640(r0)
st r5, 736(r2)
ld r6, 512(r2)
st r1, 1024(r0)
ld r7, 1024(r0)
ld r8, 864(r2)
halt
.board
li r1, 6
li r2, 4096
st r1, 20(r0)
ld r3, 24(r0)
st r1, 84(r2)
ld r4, 104(r2)
ld r5, 672(r0)
st r5, 768(r2)
ld r6, 512(r2)
st r1, 1024(r0)
ld r7, 1024(r0)
ld r8, 512(r2)
halt
.board
li r1, 7
li r2, 4096
st r1, 24(r0)
ld r3, 28(r0)
st r1, 88(r2)
ld r4, 108(r2)
ld r5, 704(r0)
st r5, 800(r2)
ld r6, 512(r2)
st r1, 1024(r0)
ld r7, 1024(r0)
ld r8, 544(r2)
halt
.board
li r1, 8
li r2, 4096
st r1, 28(r0)
ld r3, 32(r0)
st r1, 92(r2)
ld r4, 64(r2)
ld r5, 736(r0)
st r5, 832(r2)
ld r6, 512(r2)
st r1, 1024(r0)
ld r7, 1024(r0)
ld r8, 576(r2)
halt
.board
li r1, 9
li r2, 4096
st r1, 32(r0)
ld r3, 36(r0)
st r1, 96(r2)
ld r4, 68(r2)
ld r5, 768(r0)
st r5, 864(r2)
ld r6, 512(r2)
st r1, 1024(r0)
ld r7, 1024(r0)
ld r8, 608(r2)
halt
.board
li r1, 10
li r2, 4096
st r1, 36(r0)
ld r3, 40(r0)
st r1, 100(r2)
ld r4, 72(r2)
ld r5, 800(r0)
st r5, 512(r2)
ld r6, 512(r2)
st r1, 1024(r0)
ld r7, 1024(r0)
ld r8, 640(r2)
halt
.board
li r1, 11
li r2, 4096
st r1, 40(r0)
ld r3, 44(r0)
st r1, 104(r2)
ld r4, 76(r2)
ld r5, 832(r0)
st r5, 544(r2)
ld r6, 512(r2)
st r1, 1024(r0)
ld r7, 1024(r0)
ld r8, 672(r2)
halt
.board
li r1, 12
li r2, 4096
st r1, 44(r0)
ld r3, 0(r0)
st r1, 108(r2)
ld r4, 80(r2)
ld r5, 864(r0)
st r5, 576(r2)
ld r6, 512(r2)
st r1, 1024(r0)
ld r7, 1024(r0)
ld r8, 704(r2)
halt
