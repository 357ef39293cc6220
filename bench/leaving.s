; With two frames, three pages that are written push each other out, and each has eight blocks in the cache when it leaves.
.page 0 0 rw
.page 0 1 rw
.page 0 2 rw
.board
li r2, 4096
li r3, 8192
again: st r1, 64(r0)
st r1, 96(r0)
st r1, 128(r0)
st r1, 160(r0)
st r1, 192(r0)
st r1, 224(r0)
st r1, 256(r0)
st r1, 288(r0)
st r1, 64(r2)
st r1, 96(r2)
st r1, 128(r2)
st r1, 160(r2)
st r1, 192(r2)
st r1, 224(r2)
st r1, 256(r2)
st r1, 288(r2)
st r1, 64(r3)
st r1, 96(r3)
st r1, 128(r3)
st r1, 160(r3)
st r1, 192(r3)
st r1, 224(r3)
st r1, 256(r3)
st r1, 288(r3)
addi r1, r1, 1
jmp again
