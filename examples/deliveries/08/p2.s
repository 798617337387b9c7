lui x5, 9
lui x8, 8
fence w, r
lw x14, 124(x5)
add x9, x9, x14
xor x9, x9, x13
srli x29, x9, 1
xor x29, x29, x9
andi x29, x29, 1
slli x29, x29, 12
add x29, x29, x8
lw x13, 64(x29)
add x9, x9, x13
xor x9, x9, x10
srli x29, x9, 1
xor x29, x29, x9
andi x29, x29, 1
slli x29, x29, 12
add x29, x29, x8
lw x10, 64(x29)
jal x0, -72
