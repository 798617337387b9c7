lui x5, 2
addi x10, x0, -1
addi x15, x0, -1
lui x8, 2
addi x14, x14, 3
sw x14, 128(x5)
lw x15, 128(x5)
andi x29, x15, 1
slli x29, x29, 12
add x29, x29, x8
lw x13, 128(x29)
lw x10, 128(x5)
add x9, x9, x14
srli x29, x9, 8
xor x29, x29, x9
andi x29, x29, 1
slli x29, x29, 12
add x29, x29, x8
lw x10, 128(x29)
addi x15, x15, 1
addi x13, x13, 1
add x9, x9, x14
xor x9, x9, x13
srli x29, x9, 8
xor x29, x29, x9
andi x29, x29, 1
slli x29, x29, 12
add x29, x29, x8
lw x14, 128(x29)
jal x0, -100
