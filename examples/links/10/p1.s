lui x5, 1
lui x6, 1
addi x15, x0, 1
lui x8, 3
beq x10, x0, 8
lw x13, 64(x6)
add x9, x9, x10
xor x9, x9, x13
andi x29, x9, 1
slli x29, x29, 12
add x29, x29, x8
lw x14, 128(x29)
addi x10, x10, 3
addi x13, x13, 3
add x9, x9, x10
xor x9, x9, x10
andi x29, x9, 1
slli x29, x29, 12
add x29, x29, x8
lw x14, 128(x29)
jal x0, -64
