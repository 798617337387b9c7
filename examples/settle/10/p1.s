addi x5, x0, 0
lb x10, 132(x5)
andi x29, x14, 1
slli x29, x29, 6
add x29, x29, x5
sw x14, 0(x29)
sh x13, 136(x5)
bne x14, x10, 8
addi x13, x0, 1
lhu x15, 134(x5)
sw x13, 128(x5)
lw x13, 188(x5)
sw x13, 128(x5)
beq x14, x13, 8
sw x10, 128(x5)
addi x10, x10, 1
addi x13, x13, 1
jal x0, -64
