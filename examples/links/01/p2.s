lui x5, 3
lui x6, 3
addi x30, x0, 3
sb x15, 64(x5)
addi x30, x30, -1
bne x30, x0, -8
addi x13, x13, 1
addi x10, x10, 3
jal x0, -24
