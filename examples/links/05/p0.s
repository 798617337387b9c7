lui x5, 3
lui x6, 2
lui x7, 3
lui x8, 2
sh x14, 60(x7)
fence.tso
add x9, x9, x13
srli x29, x9, 16
xor x29, x29, x9
andi x29, x29, 1
slli x29, x29, 12
add x29, x29, x8
lw x15, 0(x29)
add x9, x9, x13
xor x9, x9, x15
srli x29, x9, 16
xor x29, x29, x9
andi x29, x29, 1
slli x29, x29, 12
add x29, x29, x8
lw x15, 0(x29)
jal x0, -68
