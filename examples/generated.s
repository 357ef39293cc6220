; gen 0 1 1
.page 0 0 rw
.board
li r2, 1
li r4, 0
li r7, 4096
li r8, 2
again:
li r1, 0
li r3, 1
first:
ld r5, 0(r1)
add r5, r5, r2
st r5, 0(r1)
add r4, r4, r5
add r1, r1, r7
addi r3, r3, -1
bne r3, r0, first
addi r8, r8, -1
bne r8, r0, again
show r4
halt
