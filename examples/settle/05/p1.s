addi x5, x0, 0
addi x6, x0, 0
bne x13, x14, 8
lw x15, 64(x6)
addi x30, x0, 3
amoor.w x13, x14, (x6)
addi x30, x30, -1
bne x30, x0, -8
addi x13, x13, 1
addi x10, x10, 1
jal x0, -32
