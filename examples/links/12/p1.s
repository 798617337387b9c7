lui x5, 5
lui x6, 5
lui x7, 5
addi x13, x0, 1
lw x13, 1984(x7)
bne x15, x14, 8
lw x14, 1984(x5)
addi x15, x15, 3
addi x13, x13, 1
jal x0, -20
