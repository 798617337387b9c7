lui x5, 6
lui x6, 6
lui x7, 6
addi x10, x0, 2
addi x14, x0, -1
lui x8, 5
sb x13, 64(x5)
sw x13, 64(x7)
lw x10, 64(x5)
andi x29, x10, 1
slli x29, x29, 12
add x29, x29, x8
lw x14, 64(x29)
addi x15, x15, 1
addi x14, x14, 1
add x9, x9, x14
srli x29, x9, 16
xor x29, x29, x9
andi x29, x29, 1
slli x29, x29, 12
add x29, x29, x8
lw x13, 64(x29)
jal x0, -64
