lui x5, 8
addi x6, x0, 0
lui x7, 8
addi x15, x0, 1
bne x10, x10, 8
lh x15, 1984(x7)
lhu x10, 1984(x5)
jal x0, -12
