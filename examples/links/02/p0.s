addi x5, x0, 0
addi x6, x0, 0
addi x14, x0, 1
addi x10, x0, 1
addi x8, x0, 0
addi x13, x13, 3
sb x13, 0(x5)
lb x10, 0(x6)
andi x29, x10, 1
slli x29, x29, 12
add x29, x29, x8
lw x14, 0(x29)
sw x14, 0(x5)
sw x0, 0(x5)
addi x14, x14, 1
addi x15, x15, 1
add x9, x9, x15
xor x9, x9, x15
srli x29, x9, 1
xor x29, x29, x9
andi x29, x29, 1
slli x29, x29, 12
add x29, x29, x8
lw x14, 0(x29)
jal x0, -76
