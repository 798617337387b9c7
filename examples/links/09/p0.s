lui x5, 11
lui x6, 12
lui x7, 12
addi x13, x0, -1
lui x8, 11
addi x28, x5, 1984
amoxor.w.rl x15, x15, (x28)
andi x29, x15, 1
slli x29, x29, 12
add x29, x29, x8
lw x14, 1984(x29)
.word 0x6250000f
addi x15, x15, 1
addi x10, x10, 1
add x9, x9, x15
srli x29, x9, 8
xor x29, x29, x9
andi x29, x29, 1
slli x29, x29, 12
add x29, x29, x8
lw x10, 1984(x29)
