; With one frame, two pages that are written push each other out: each store is answered by faults first, and each page goes out dirty.
.page 0 0 rw
.page 0 1 rw
.board
li r2, 4096
again: st r1, 64(r0)
st r1, 64(r2)
addi r1, r1, 1
jmp again
