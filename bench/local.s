; Twelve boards that count, without an access.
.board
again: addi r1, r1, 1
addi r2, r2, 1
addi r3, r3, 1
jmp again
.board
again: addi r1, r1, 1
addi r2, r2, 1
addi r3, r3, 1
jmp again
.board
again: addi r1, r1, 1
addi r2, r2, 1
addi r3, r3, 1
jmp again
.board
again: addi r1, r1, 1
addi r2, r2, 1
addi r3, r3, 1
jmp again
.board
again: addi r1, r1, 1
addi r2, r2, 1
addi r3, r3, 1
jmp again
.board
again: addi r1, r1, 1
addi r2, r2, 1
addi r3, r3, 1
jmp again
.board
again: addi r1, r1, 1
addi r2, r2, 1
addi r3, r3, 1
jmp again
.board
again: addi r1, r1, 1
addi r2, r2, 1
addi r3, r3, 1
jmp again
.board
again: addi r1, r1, 1
addi r2, r2, 1
addi r3, r3, 1
jmp again
.board
again: addi r1, r1, 1
addi r2, r2, 1
addi r3, r3, 1
jmp again
.board
again: addi r1, r1, 1
addi r2, r2, 1
addi r3, r3, 1
jmp again
.board
again: addi r1, r1, 1
addi r2, r2, 1
addi r3, r3, 1
jmp again
