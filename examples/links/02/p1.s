lui x5, 5
lui x6, 5
lui x8, 4
addi x14, x14, 3
addi x28, x5, 64
lr.w.aq x10, (x28)
sc.w.aq x14, x15, (x28)
sb x14, 64(x6)
addi x28, x5, 64
lr.w x13, (x28)
addi x28, x5, 64
sc.w.aqrl x14, x10, (x28)
andi x29, x14, 1
slli x29, x29, 12
add x29, x29, x8
lw x13, 64(x29)
addi x14, x14, 1
lh x13, 64(x6)
addi x28, x6, 64
lr.w x14, (x28)
addi x28, x6, 64
sc.w.aq x14, x15, (x28)
andi x29, x14, 1
slli x29, x29, 12
add x29, x29, x8
lw x13, 64(x29)
addi x14, x14, 1
lr.w.aqrl x13, (x5)
sc.w.aqrl x14, x13, (x5)
addi x28, x5, 64
amoxor.w x14, x15, (x28)
andi x29, x14, 1
slli x29, x29, 12
add x29, x29, x8
lw x14, 64(x29)
addi x15, x15, 1
addi x14, x14, 3
add x9, x9, x14
srli x29, x9, 1
xor x29, x29, x9
andi x29, x29, 1
slli x29, x29, 12
add x29, x29, x8
lw x13, 64(x29)
jal x0, -164
