lui x5, 1048574
addi x13, x0, 2
lui x8, 1048574
addi x13, x13, 1
sw x13, 1984(x5)
lw x15, 64(x5)
addi x28, x5, 1984
amoswap.w.rl x13, x13, (x28)
andi x29, x13, 1
slli x29, x29, 12
add x29, x29, x8
lw x15, 1984(x29)
lw x10, 1984(x5)
add x9, x9, x14
xor x9, x9, x15
srli x29, x9, 8
xor x29, x29, x9
andi x29, x29, 1
slli x29, x29, 12
add x29, x29, x8
lw x13, 1984(x29)
addi x13, x13, 1
addi x15, x15, 3
add x9, x9, x14
srli x29, x9, 8
xor x29, x29, x9
andi x29, x29, 1
slli x29, x29, 12
add x29, x29, x8
lw x13, 1984(x29)
jal x0, -108
