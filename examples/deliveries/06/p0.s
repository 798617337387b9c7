lui x5, 1
addi x6, x0, 0
addi x8, x0, 0
addi x28, x6, 128
lr.w.rl x14, (x28)
sb x14, 136(x5)
addi x28, x6, 128
sc.w x13, x13, (x28)
andi x29, x13, 1
slli x29, x29, 12
add x29, x29, x8
lw x14, 128(x29)
sw x0, 188(x6)
addi x15, x15, 1
addi x13, x13, 1
add x9, x9, x15
xor x9, x9, x14
srli x29, x9, 1
xor x29, x29, x9
andi x29, x29, 1
slli x29, x29, 12
add x29, x29, x8
lw x14, 128(x29)
