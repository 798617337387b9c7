lui x5, 2
lui x6, 1
lui x8, 1
addi x10, x10, 3
sb x13, 128(x5)
addi x28, x5, 128
amoxor.w.aqrl x10, x10, (x28)
andi x29, x10, 1
slli x29, x29, 12
add x29, x29, x8
lw x10, 128(x29)
add x9, x9, x10
xor x9, x9, x13
srli x29, x9, 16
xor x29, x29, x9
andi x29, x29, 1
slli x29, x29, 12
add x29, x29, x8
lw x10, 128(x29)
jal x0, -64
