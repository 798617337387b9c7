lui x5, 6
lui x6, 5
lui x8, 5
addi x13, x13, 1
sb x13, 128(x6)
addi x28, x5, 128
amoswap.w.aq x15, x15, (x28)
andi x29, x15, 1
slli x29, x29, 12
add x29, x29, x8
lw x10, 128(x29)
sw x14, 1984(x6)
addi x30, x0, 3
amomax.w.aqrl x15, x10, (x6)
addi x30, x30, -1
bne x30, x0, -8
addi x14, x14, 1
addi x13, x13, 1
add x9, x9, x15
xor x9, x9, x10
srli x29, x9, 16
xor x29, x29, x9
andi x29, x29, 1
slli x29, x29, 12
add x29, x29, x8
lw x15, 128(x29)
jal x0, -92
