lui x5, 7
lui x6, 5
lui x7, 6
addi x13, x0, -1
lui x8, 6
addi x28, x6, 128
lr.w.rl x14, (x28)
addi x28, x6, 128
sc.w x14, x13, (x28)
andi x29, x14, 1
slli x29, x29, 12
add x29, x29, x8
lw x10, 128(x29)
sc.w x10, x0, (x7)
add x9, x9, x13
andi x29, x9, 1
slli x29, x29, 12
add x29, x29, x8
lw x13, 128(x29)
jal x0, -56
