lui x5, 2
lui x6, 3
addi x15, x0, -1
addi x10, x0, 1
lui x8, 2
andi x29, x10, 3
slli x29, x29, 6
add x29, x29, x6
sw x13, 0(x29)
addi x14, x14, 1
addi x10, x10, 1
add x9, x9, x15
srli x29, x9, 8
xor x29, x29, x9
andi x29, x29, 1
slli x29, x29, 12
add x29, x29, x8
lw x14, 0(x29)
jal x0, -52
