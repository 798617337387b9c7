lui x5, 100
lui x6, 100
addi x10, x15, 2
sb x13, 64(x5)
bne x15, x14, 8
lw x13, 64(x5)
addi x15, x15, 1
addi x10, x10, 1
jal x0, -24
