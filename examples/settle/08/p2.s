lui x5, 1048574
lui x6, 1048575
lui x8, 1048574
fence w, r
beq x10, x13, 8
lhu x10, 1984(x6)
add x9, x9, x13
xor x9, x9, x14
andi x29, x9, 1
slli x29, x29, 12
add x29, x29, x8
lw x14, 1984(x29)
addi x14, x14, 3
addi x10, x10, 1
add x9, x9, x14
xor x9, x9, x15
andi x29, x9, 1
slli x29, x29, 12
add x29, x29, x8
lw x14, 1984(x29)
jal x0, -68
