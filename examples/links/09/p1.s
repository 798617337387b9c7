lui x5, 12
lui x6, 11
lui x7, 11
addi x15, x0, 1
lui x8, 11
lr.w.rl x14, (x7)
lr.w.aq x15, (x6)
sc.w.rl x13, x10, (x6)
sc.w.rl x10, x15, (x7)
addi x10, x10, 1
addi x15, x15, 1
add x9, x9, x13
srli x29, x9, 1
xor x29, x29, x9
andi x29, x29, 1
slli x29, x29, 12
add x29, x29, x8
lw x13, 1984(x29)
jal x0, -52
