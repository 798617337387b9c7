lui x5, 2
lui x6, 2
addi x7, x0, 0
addi x13, x0, 3
addi x8, x0, 0
sw x10, 4(x7)
add x9, x9, x13
xor x9, x9, x10
andi x29, x9, 1
slli x29, x29, 12
add x29, x29, x8
lw x14, 64(x29)
addi x15, x15, 3
addi x10, x10, 1
add x9, x9, x15
srli x29, x9, 16
xor x29, x29, x9
andi x29, x29, 1
slli x29, x29, 12
add x29, x29, x8
lw x10, 64(x29)
jal x0, -64
