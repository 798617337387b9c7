lui x5, 6
lui x6, 4
addi x15, x0, 2
addi x14, x0, 1
lui x8, 4
addi x14, x14, 1
sw x14, 0(x5)
addi x28, x6, 0
lr.w.rl x10, (x28)
addi x28, x6, 0
sc.w x13, x15, (x28)
andi x29, x13, 1
slli x29, x29, 12
add x29, x29, x8
lw x13, 0(x29)
addi x14, x14, 3
sw x14, 0(x6)
addi x28, x6, 0
lr.w.aq x14, (x28)
addi x28, x6, 0
sc.w.rl x13, x15, (x28)
andi x29, x13, 1
slli x29, x29, 12
add x29, x29, x8
lw x13, 0(x29)
addi x10, x10, 1
addi x15, x15, 1
add x9, x9, x13
srli x29, x9, 8
xor x29, x29, x9
andi x29, x29, 1
slli x29, x29, 12
add x29, x29, x8
lw x10, 0(x29)
addi x17, x0, 2
ecall
