addi x5, x0, 0
addi x6, x0, 0
addi x7, x0, 0
addi x13, x0, -1
addi x15, x0, 3
lbu x14, 64(x5)
lw x10, 64(x5)
beq x10, x0, 8
sw x14, 64(x7)
sw x0, 64(x7)
lb x14, 64(x5)
lw x14, 64(x6)
bne x15, x14, 8
sb x10, 64(x6)
addi x10, x10, 1
addi x14, x14, 3
jal x0, -44
