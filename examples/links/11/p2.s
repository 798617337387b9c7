addi x5, x0, 0
addi x6, x0, 0
addi x15, x0, 2
fence ir, 0
beq x13, x0, 8
sw x14, 0(x6)
andi x29, x13, 1
slli x29, x29, 6
add x29, x29, x6
amoswap.w x15, x14, (x29)
sw x10, 0(x5)
addi x10, x10, 1
addi x14, x14, 3
jal x0, -40
