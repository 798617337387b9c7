lui x5, 6
addi x15, x0, 3
lui x8, 4
lw x15, 0(x5)
add x9, x9, x14
andi x29, x9, 1
slli x29, x29, 12
add x29, x29, x8
lw x10, 0(x29)
addi x15, x15, 1
addi x10, x10, 3
add x9, x9, x14
andi x29, x9, 1
slli x29, x29, 12
add x29, x29, x8
lw x13, 0(x29)
jal x0, -52
