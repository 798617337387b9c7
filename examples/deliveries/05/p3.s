lui x5, 11
lui x6, 12
lui x7, 11
lui x8, 10
lui x7, 12
addi x28, x7, 128
lr.w.aqrl x13, (x28)
lb x15, 128(x7)
addi x28, x7, 128
sc.w.rl x13, x14, (x28)
andi x29, x13, 1
slli x29, x29, 12
add x29, x29, x8
lw x15, 128(x29)
sw x13, 128(x7)
add x9, x9, x10
andi x29, x9, 1
slli x29, x29, 12
add x29, x29, x8
lw x15, 128(x29)
addi x14, x14, 3
addi x10, x10, 3
add x9, x9, x14
xor x9, x9, x14
andi x29, x9, 1
slli x29, x29, 12
add x29, x29, x8
lw x13, 128(x29)
jal x0, -96
