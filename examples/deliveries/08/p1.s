lui x5, 8
lui x6, 9
addi x13, x0, 3
addi x10, x0, 1
lui x8, 8
lhu x13, 126(x5)
sh x14, 70(x6)
add x9, x9, x14
xor x9, x9, x14
andi x29, x9, 1
slli x29, x29, 12
add x29, x29, x8
lw x15, 64(x29)
fence w, r
add x9, x9, x15
srli x29, x9, 8
xor x29, x29, x9
andi x29, x29, 1
slli x29, x29, 12
add x29, x29, x8
lw x10, 64(x29)
addi x14, x14, 1
addi x13, x13, 1
add x9, x9, x13
xor x9, x9, x10
srli x29, x9, 16
xor x29, x29, x9
andi x29, x29, 1
slli x29, x29, 12
add x29, x29, x8
lw x13, 64(x29)
jal x0, -104
