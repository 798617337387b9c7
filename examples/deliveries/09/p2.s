lui x5, 9
lui x6, 9
lui x7, 8
lui x8, 8
lr.w x10, (x5)
sc.w.rl x14, x15, (x5)
addi x15, x15, 3
addi x10, x10, 3
add x9, x9, x14
srli x29, x9, 1
xor x29, x29, x9
andi x29, x29, 1
slli x29, x29, 12
add x29, x29, x8
lw x13, 1984(x29)
jal x0, -44
