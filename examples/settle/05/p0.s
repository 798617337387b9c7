lui x5, 5
lui x6, 6
addi x14, x0, -1
addi x13, x0, 1
lui x8, 5
addi x14, x10, 2
lw x10, 128(x5)
andi x29, x10, 1
slli x29, x29, 12
add x29, x29, x8
lw x14, 128(x29)
sw x13, 128(x6)
addi x15, x15, 1
addi x10, x10, 1
add x9, x9, x13
andi x29, x9, 1
slli x29, x29, 12
add x29, x29, x8
lw x15, 128(x29)
jal x0, -56
