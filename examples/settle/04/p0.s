addi x5, x0, 0
addi x13, x0, 1
addi x10, x0, 1
sw x13, 1984(x5)
sw x14, 1984(x5)
bne x10, x10, 8
addi x14, x0, 1
addi x14, x14, 1
addi x15, x15, 1
jal x0, -24
