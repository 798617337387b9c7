lui x5, 9
lui x6, 10
addi x15, x0, 3
lui x8, 9
lw x13, 128(x5)
addi x30, x0, 3
lb x15, 128(x6)
addi x30, x30, -1
bne x30, x0, -8
andi x29, x13, 1
slli x29, x29, 6
add x29, x29, x6
lw x15, 0(x29)
addi x14, x14, 1
addi x10, x10, 1
add x9, x9, x13
srli x29, x9, 1
xor x29, x29, x9
andi x29, x29, 1
slli x29, x29, 12
add x29, x29, x8
lw x14, 128(x29)
jal x0, -72
