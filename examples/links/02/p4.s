lui x5, 1
lui x6, 4
addi x10, x0, 1
addi x15, x0, 3
addi x8, x0, 0
addi x15, x15, 3
sw x15, 0(x5)
addi x28, x5, 0
amoswap.w x13, x13, (x28)
andi x29, x13, 1
slli x29, x29, 12
add x29, x29, x8
lw x10, 0(x29)
addi x15, x15, 1
sw x15, 0(x6)
addi x28, x6, 0
amoswap.w x15, x13, (x28)
andi x29, x15, 1
slli x29, x29, 12
add x29, x29, x8
lw x15, 0(x29)
addi x13, x13, 1
addi x14, x14, 1
add x9, x9, x15
srli x29, x9, 8
xor x29, x29, x9
andi x29, x29, 1
slli x29, x29, 12
add x29, x29, x8
lw x10, 0(x29)
jal x0, -100
