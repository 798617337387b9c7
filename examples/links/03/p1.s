addi x5, x0, 0
addi x6, x0, 0
addi x7, x0, 0
fence.tso
addi x30, x0, 2
sw x13, 136(x7)
addi x30, x30, -1
bne x30, x0, -8
addi x10, x10, 1
addi x15, x15, 3
jal x0, -28
