lui x5, 7
lui x6, 5
lui x8, 6
lw x13, 64(x5)
addi x17, x0, 1
ecall
add x9, x9, x15
xor x9, x9, x10
andi x29, x9, 1
slli x29, x29, 12
add x29, x29, x8
lw x15, 64(x29)
addi x13, x13, 1
addi x10, x10, 1
add x9, x9, x15
xor x9, x9, x13
srli x29, x9, 16
xor x29, x29, x9
andi x29, x29, 1
slli x29, x29, 12
add x29, x29, x8
lw x10, 64(x29)
jal x0, -76
