lui x5, 7
lui x6, 7
lui x8, 8
sb x15, 1984(x5)
lbu x10, 1984(x5)
andi x29, x10, 1
slli x29, x29, 12
add x29, x29, x8
lw x10, 1984(x29)
addi x15, x15, 1
sw x14, 1984(x5)
sw x15, 1984(x6)
lw x13, 1984(x5)
andi x29, x13, 1
slli x29, x29, 12
add x29, x29, x8
lw x15, 1984(x29)
addi x14, x14, 3
addi x15, x15, 1
add x9, x9, x14
andi x29, x9, 1
slli x29, x29, 12
add x29, x29, x8
lw x10, 1984(x29)
jal x0, -84
