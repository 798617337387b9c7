lui x5, 1048575
lui x6, 1048575
lui x7, 1048575
lui x8, 1048574
addi x10, x10, 1
addi x28, x6, 128
lr.w x13, (x28)
sc.w.aq x13, x14, (x28)
sw x10, 128(x6)
addi x28, x6, 128
amoswap.w x14, x13, (x28)
andi x29, x14, 1
slli x29, x29, 12
add x29, x29, x8
lw x15, 128(x29)
addi x15, x15, 1
addi x10, x10, 1
add x9, x9, x13
xor x9, x9, x15
srli x29, x9, 16
xor x29, x29, x9
andi x29, x29, 1
slli x29, x29, 12
add x29, x29, x8
lw x13, 128(x29)
jal x0, -84
