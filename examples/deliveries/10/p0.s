lui x5, 6
addi x10, x0, 1
addi x15, x0, 2
lui x8, 8
addi x14, x14, 3
sb x14, 64(x5)
sb x10, 64(x5)
addi x28, x5, 64
lr.w.rl x14, (x28)
addi x28, x5, 64
sc.w.rl x14, x10, (x28)
andi x29, x14, 1
slli x29, x29, 12
add x29, x29, x8
lw x15, 64(x29)
addi x14, x14, 1
sw x14, 64(x5)
sw x14, 64(x5)
addi x28, x5, 64
amoswap.w x10, x13, (x28)
andi x29, x10, 1
slli x29, x29, 12
add x29, x29, x8
lw x10, 64(x29)
sw x14, 64(x5)
sw x14, 64(x5)
addi x28, x5, 64
amoswap.w.aq x14, x15, (x28)
andi x29, x14, 1
slli x29, x29, 12
add x29, x29, x8
lw x15, 64(x29)
add x9, x9, x13
xor x9, x9, x14
andi x29, x9, 1
slli x29, x29, 12
add x29, x29, x8
lw x14, 64(x29)
addi x10, x10, 1
addi x13, x13, 1
jal x0, -144
