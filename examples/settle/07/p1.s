lui x5, 7
lui x6, 6
addi x15, x0, 2
lui x8, 6
sh x10, 128(x5)
add x9, x9, x10
andi x29, x9, 1
slli x29, x29, 12
add x29, x29, x8
lw x14, 128(x29)
addi x13, x13, 1
addi x14, x14, 1
add x9, x9, x15
andi x29, x9, 1
slli x29, x29, 12
add x29, x29, x8
lw x14, 128(x29)
jal x0, -52
