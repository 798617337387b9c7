lui x5, 5
lui x6, 5
addi x14, x0, 3
addi x10, x0, 2
lb x10, 64(x6)
fence r, w
lh x15, 64(x5)
sw x0, 64(x6)
lbu x10, 64(x5)
lb x14, 64(x5)
lw x14, 64(x6)
lb x15, 64(x5)
addi x30, x0, 3
lhu x14, 64(x6)
addi x30, x30, -1
bne x30, x0, -8
lb x15, 64(x6)
fence r, w
addi x14, x14, 3
addi x10, x10, 1
jal x0, -64
