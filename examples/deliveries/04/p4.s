lui x5, 5
lui x6, 2
addi x13, x0, -1
addi x14, x0, -1
lui x8, 2
lw x10, 124(x5)
addi x28, x5, 128
amoxor.w.rl x15, x13, (x28)
andi x29, x15, 1
slli x29, x29, 12
add x29, x29, x8
lw x14, 128(x29)
lbu x13, 66(x6)
add x9, x9, x10
xor x9, x9, x13
andi x29, x9, 1
slli x29, x29, 12
add x29, x29, x8
lw x15, 128(x29)
addi x14, x14, 1
addi x15, x15, 3
add x9, x9, x15
xor x9, x9, x10
andi x29, x9, 1
slli x29, x29, 12
add x29, x29, x8
lw x15, 128(x29)
jal x0, -88
