lui x5, 5
lui x6, 4
addi x14, x0, 1
addi x13, x0, 1
addi x8, x0, 0
addi x13, x13, 1
sw x13, 64(x5)
addi x28, x6, 64
amoswap.w x15, x10, (x28)
andi x29, x15, 1
slli x29, x29, 12
add x29, x29, x8
lw x15, 64(x29)
addi x13, x13, 3
lhu x14, 64(x5)
lbu x10, 64(x6)
andi x29, x10, 1
slli x29, x29, 12
add x29, x29, x8
lw x13, 64(x29)
addi x15, x15, 1
addi x10, x10, 1
add x9, x9, x14
andi x29, x9, 1
slli x29, x29, 12
add x29, x29, x8
lw x15, 64(x29)
jal x0, -88
