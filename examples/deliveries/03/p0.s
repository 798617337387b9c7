lui x5, 9
lui x6, 9
addi x13, x0, 2
lui x8, 9
andi x29, x15, 1
slli x29, x29, 6
add x29, x29, x6
sw x13, 0(x29)
sw x13, 64(x5)
sb x10, 67(x5)
sb x15, 66(x6)
sb x13, 66(x6)
lh x10, 64(x5)
addi x17, x0, 1
ecall
addi x15, x15, 1
addi x10, x10, 1
add x9, x9, x13
andi x29, x9, 1
slli x29, x29, 12
add x29, x29, x8
lw x15, 64(x29)
jal x0, -72
