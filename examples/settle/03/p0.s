lui x5, 9
lui x6, 10
lui x7, 10
addi x10, x0, 1
addi x13, x0, 1
lui x8, 10
sw x10, 0(x7)
lr.w.rl x13, (x7)
sw x14, 0(x5)
lw x14, 0(x6)
addi x13, x13, 1
addi x15, x15, 3
add x9, x9, x10
xor x9, x9, x14
andi x29, x9, 1
slli x29, x29, 12
add x29, x29, x8
lw x15, 0(x29)
