lui x5, 11
lui x6, 11
addi x10, x0, -1
lui x8, 11
addi x15, x10, -1
sw x15, 64(x5)
addi x14, x14, 1
addi x15, x15, 1
jal x0, -16
