lui x5, 5
lui x6, 5
lui x7, 5
addi x13, x0, 3
beq x14, x14, 8
sw x15, 1984(x6)
lh x14, 1984(x5)
sh x10, 1984(x6)
addi x17, x0, 1
ecall
lhu x10, 1984(x5)
lhu x14, 1984(x7)
fence rw, rw
lhu x15, 1984(x7)
sw x13, 1984(x5)
lbu x10, 1984(x5)
lw x10, 1984(x7)
addi x30, x0, 2
lw x14, 1984(x6)
addi x30, x30, -1
bne x30, x0, -8
addi x14, x14, 1
addi x13, x13, 1
jal x0, -76
