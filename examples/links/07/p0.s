lui x5, 1048575
lui x6, 1048575
addi x10, x0, 2
addi x14, x0, 2
lui x8, 1048574
fence rw, rw
addi x28, x6, 64
amoadd.w x15, x15, (x28)
andi x29, x15, 1
slli x29, x29, 12
add x29, x29, x8
lw x13, 64(x29)
lh x13, 64(x5)
add x9, x9, x14
srli x29, x9, 16
xor x29, x29, x9
andi x29, x29, 1
slli x29, x29, 12
add x29, x29, x8
lw x13, 64(x29)
addi x14, x14, 1
addi x15, x15, 1
add x9, x9, x13
xor x9, x9, x15
andi x29, x9, 1
slli x29, x29, 12
add x29, x29, x8
lw x10, 64(x29)
jal x0, -92
