lui x5, 4
lui x6, 7
addi x13, x0, 2
lui x8, 5
bne x10, x14, 8
sw x13, 1984(x6)
add x9, x9, x13
srli x29, x9, 16
xor x29, x29, x9
andi x29, x29, 1
slli x29, x29, 12
add x29, x29, x8
lw x10, 1984(x29)
lh x14, 1984(x5)
add x9, x9, x14
xor x9, x9, x10
srli x29, x9, 8
xor x29, x29, x9
andi x29, x29, 1
slli x29, x29, 12
add x29, x29, x8
lw x14, 1984(x29)
addi x10, x10, 3
addi x15, x15, 1
add x9, x9, x10
andi x29, x9, 1
slli x29, x29, 12
add x29, x29, x8
lw x13, 1984(x29)
jal x0, -100
