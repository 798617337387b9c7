lui x5, 7
lui x6, 5
addi x14, x0, 2
lui x8, 6
sw x13, 136(x6)
addi x13, x14, 7
add x9, x9, x14
andi x29, x9, 1
slli x29, x29, 12
add x29, x29, x8
lw x13, 128(x29)
jal x0, -28
