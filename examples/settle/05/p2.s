lui x5, 10
lui x6, 11
lui x7, 11
addi x13, x0, 3
addi x15, x0, 2
lui x8, 9
lbu x14, 60(x5)
sw x10, 4(x5)
addi x14, x14, 1
addi x10, x10, 1
add x9, x9, x13
andi x29, x9, 1
slli x29, x29, 12
add x29, x29, x8
lw x10, 0(x29)
