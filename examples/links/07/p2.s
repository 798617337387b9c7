lui x5, 5
lui x6, 4
lui x7, 5
addi x10, x0, 3
addi x14, x0, 2
lui x8, 4
lbu x14, 129(x7)
lbu x14, 1991(x6)
add x9, x9, x13
xor x9, x9, x10
andi x29, x9, 1
slli x29, x29, 12
add x29, x29, x8
lw x14, 128(x29)
addi x10, x10, 1
addi x15, x15, 3
add x9, x9, x15
andi x29, x9, 1
slli x29, x29, 12
add x29, x29, x8
lw x14, 128(x29)
