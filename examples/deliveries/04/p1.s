lui x5, 1
lui x6, 2
addi x10, x0, 3
addi x13, x0, 3
lui x8, 2
addi x30, x0, 3
sw x10, 0(x6)
addi x30, x30, -1
bne x30, x0, -8
addi x10, x10, 1
addi x14, x14, 3
add x9, x9, x15
srli x29, x9, 1
xor x29, x29, x9
andi x29, x29, 1
slli x29, x29, 12
add x29, x29, x8
lw x10, 0(x29)
jal x0, -52
