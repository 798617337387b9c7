lui x5, 8
lui x6, 9
lui x7, 8
addi x13, x0, 3
lui x8, 8
addi x28, x6, 1984
amoswap.w.rl x15, x10, (x28)
andi x29, x15, 1
slli x29, x29, 12
add x29, x29, x8
lw x13, 1984(x29)
lui x6, 8
addi x10, x10, 1
addi x15, x15, 1
add x9, x9, x14
xor x9, x9, x15
andi x29, x9, 1
slli x29, x29, 12
add x29, x29, x8
lw x14, 1984(x29)
jal x0, -60
