lui x5, 1048575
lui x6, 1048575
addi x13, x0, 2
addi x15, x0, 2
lui x8, 1048574
sw x15, 128(x5)
sw x15, 128(x5)
addi x28, x5, 128
lr.w.aq x10, (x28)
addi x28, x5, 128
sc.w.rl x13, x13, (x28)
andi x29, x13, 1
slli x29, x29, 12
add x29, x29, x8
lw x10, 128(x29)
addi x15, x15, 1
addi x14, x14, 1
add x9, x9, x10
xor x9, x9, x13
srli x29, x9, 8
xor x29, x29, x9
andi x29, x29, 1
slli x29, x29, 12
add x29, x29, x8
lw x13, 128(x29)
jal x0, -80
