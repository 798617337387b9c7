lui x5, 1
lui x6, 3
addi x7, x0, 0
addi x10, x0, 1
addi x14, x0, 3
lui x8, 2
addi x13, x13, -1
lbu x10, 72(x6)
addi x10, x10, 3
addi x13, x13, 3
add x9, x9, x13
andi x29, x9, 1
slli x29, x29, 12
add x29, x29, x8
lw x15, 64(x29)
jal x0, -36
