addi x5, x0, 0
addi x6, x0, 0
.word 0x7150000f
lw x10, 64(x6)
beq x15, x0, 8
sw x10, 64(x5)
sh x14, 64(x5)
sb x0, 64(x5)
sh x0, 64(x6)
sb x13, 64(x6)
addi x10, x14, 7
sw x15, 64(x5)
andi x29, x15, 3
slli x29, x29, 6
add x29, x29, x5
amomax.w x13, x10, (x29)
addi x14, x14, 1
addi x15, x15, 1
jal x0, -64
