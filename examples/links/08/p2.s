lui x5, 7
lui x6, 6
lui x7, 6
addi x10, x0, -1
lui x8, 5
fence rw, rw
addi x17, x0, 3
ecall
addi x13, x13, 1
addi x15, x15, 1
add x9, x9, x10
andi x29, x9, 1
slli x29, x29, 12
add x29, x29, x8
lw x10, 64(x29)
jal x0, -40
