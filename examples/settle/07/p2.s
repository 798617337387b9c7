lui x5, 10
lui x6, 10
addi x14, x0, 1
addi x13, x0, -1
addi x13, x14, 2
sw x10, 8(x5)
addi x13, x13, 2
lw x13, 8(x5)
sw x15, 4(x6)
ebreak
sh x13, 2046(x6)
sb x10, 3(x6)
sb x10, 1987(x5)
sb x14, 1(x5)
sb x10, 63(x5)
sw x13, 8(x6)
sw x0, 1984(x5)
beq x14, x15, 8
lb x10, 0(x5)
jal x0, -60
