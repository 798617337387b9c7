lui x5, 5
lui x6, 5
addi x10, x0, 1
addi x13, x0, 3
lui x8, 7
sh x13, 0(x6)
sb x13, 62(x5)
lbu x10, 0(x6)
andi x29, x10, 1
slli x29, x29, 12
add x29, x29, x8
lw x10, 0(x29)
addi x30, x0, 3
lb x15, 0(x6)
addi x30, x30, -1
bne x30, x0, -8
addi x17, x0, 2
ecall
