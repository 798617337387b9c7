lui x5, 3
lui x6, 3
lui x7, 3
addi x10, x0, 1
lui x8, 1
lbu x13, 1984(x5)
lh x10, 1984(x5)
lw x15, 1984(x5)
lhu x13, 1984(x7)
beq x10, x0, 8
lw x14, 1984(x5)
addi x7, x0, 0
addi x28, x7, 1984
amoswap.w.rl x15, x13, (x28)
andi x29, x15, 1
slli x29, x29, 12
add x29, x29, x8
lw x15, 1984(x29)
lw x15, 1984(x5)
addi x15, x15, 1
addi x10, x10, 3
add x9, x9, x14
srli x29, x9, 1
xor x29, x29, x9
andi x29, x29, 1
slli x29, x29, 12
add x29, x29, x8
lw x10, 1984(x29)
jal x0, -92
