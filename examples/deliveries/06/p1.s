addi x5, x0, 0
lui x6, 1
addi x8, x0, 0
lw x13, 128(x5)
lw x13, 128(x6)
andi x29, x13, 1
slli x29, x29, 12
add x29, x29, x8
lw x13, 128(x29)
addi x30, x0, 3
addi x28, x5, 128
sc.w.aqrl x10, x10, (x28)
addi x30, x30, -1
bne x30, x0, -12
add x9, x9, x13
srli x29, x9, 8
xor x29, x29, x9
andi x29, x29, 1
slli x29, x29, 12
add x29, x29, x8
lw x15, 128(x29)
addi x10, x10, 1
addi x14, x14, 1
add x9, x9, x13
srli x29, x9, 8
xor x29, x29, x9
andi x29, x29, 1
slli x29, x29, 12
add x29, x29, x8
lw x14, 128(x29)
addi x17, x0, 2
ecall
