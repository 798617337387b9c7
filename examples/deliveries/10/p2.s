lui x5, 9
lui x6, 6
lui x7, 7
addi x15, x0, 1
lui x8, 7
addi x15, x15, 1
lr.w.aqrl x15, (x5)
sc.w x14, x10, (x5)
addi x28, x6, 0
lr.w x10, (x28)
addi x28, x6, 0
sc.w x10, x15, (x28)
andi x29, x10, 1
slli x29, x29, 12
add x29, x29, x8
lw x14, 0(x29)
addi x15, x15, 3
sw x15, 0(x7)
addi x28, x6, 0
amoswap.w.aqrl x15, x14, (x28)
andi x29, x15, 1
slli x29, x29, 12
add x29, x29, x8
lw x14, 0(x29)
addi x15, x15, 1
sw x15, 0(x5)
addi x28, x5, 0
amoxor.w.aqrl x15, x13, (x28)
andi x29, x15, 1
slli x29, x29, 12
add x29, x29, x8
lw x10, 0(x29)
sh x14, 0(x6)
addi x10, x10, 1
addi x14, x14, 1
add x9, x9, x10
xor x9, x9, x13
srli x29, x9, 1
xor x29, x29, x9
andi x29, x29, 1
slli x29, x29, 12
add x29, x29, x8
lw x15, 0(x29)
jal x0, -152
