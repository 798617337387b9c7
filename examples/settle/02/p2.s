lui x5, 7
addi x14, x0, 3
addi x10, x0, 1
lui x8, 6
addi x14, x14, 3
lr.w.rl x15, (x5)
lw x13, 0(x5)
andi x29, x13, 1
slli x29, x29, 12
add x29, x29, x8
lw x15, 0(x29)
add x9, x9, x15
andi x29, x9, 1
slli x29, x29, 12
add x29, x29, x8
lw x10, 0(x29)
jal x0, -48
