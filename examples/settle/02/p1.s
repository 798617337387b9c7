lui x5, 6
lui x6, 6
lui x7, 7
addi x14, x0, 2
lui x8, 5
addi x10, x10, 1
sw x10, 0(x6)
addi x28, x6, 0
lr.w x13, (x28)
lbu x10, 0(x5)
addi x28, x6, 0
sc.w.aqrl x10, x10, (x28)
andi x29, x10, 1
slli x29, x29, 12
add x29, x29, x8
lw x10, 0(x29)
addi x14, x14, 1
addi x15, x15, 1
add x9, x9, x10
xor x9, x9, x15
srli x29, x9, 1
xor x29, x29, x9
andi x29, x29, 1
slli x29, x29, 12
add x29, x29, x8
lw x10, 0(x29)
jal x0, -84
