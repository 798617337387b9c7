lui x5, 7
lui x8, 5
sb x15, 129(x5)
andi x29, x14, 3
slli x29, x29, 6
add x29, x29, x5
lw x14, 0(x29)
add x9, x9, x13
andi x29, x9, 1
slli x29, x29, 12
add x29, x29, x8
lw x14, 128(x29)
add x9, x9, x10
xor x9, x9, x14
andi x29, x9, 1
slli x29, x29, 12
add x29, x29, x8
lw x10, 128(x29)
jal x0, -64
