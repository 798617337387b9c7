lui x5, 8
lui x6, 9
lui x8, 8
sw x14, 2044(x6)
addi x30, x0, 2
sw x0, 2044(x5)
addi x30, x30, -1
bne x30, x0, -8
addi x15, x15, 3
addi x13, x13, 3
add x9, x9, x14
xor x9, x9, x15
srli x29, x9, 16
xor x29, x29, x9
andi x29, x29, 1
slli x29, x29, 12
add x29, x29, x8
lw x14, 1984(x29)
jal x0, -60
