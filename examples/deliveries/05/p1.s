lui x5, 11
lui x6, 10
addi x14, x0, 1
lui x8, 11
andi x29, x10, 1
slli x29, x29, 6
add x29, x29, x5
lw x14, 0(x29)
addi x15, x15, 1
addi x10, x10, 1
add x9, x9, x15
xor x9, x9, x10
andi x29, x9, 1
slli x29, x29, 12
add x29, x29, x8
lw x10, 1984(x29)
jal x0, -48
