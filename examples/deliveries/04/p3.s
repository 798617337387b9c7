lui x5, 4
lui x8, 1
sw x14, 128(x5)
lh x15, 128(x5)
bne x14, x0, 8
lh x14, 128(x5)
addi x14, x14, 3
addi x10, x10, 1
add x9, x9, x14
andi x29, x9, 1
slli x29, x29, 12
add x29, x29, x8
lw x13, 128(x29)
jal x0, -44
