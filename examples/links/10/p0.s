lui x5, 9
addi x10, x0, 1
addi x13, x0, 3
lui x8, 8
lui x5, 9
add x9, x9, x14
xor x9, x9, x14
andi x29, x9, 1
slli x29, x29, 12
add x29, x29, x8
lw x13, 64(x29)
lhu x10, 64(x5)
sw x15, 64(x5)
addi x17, x0, 3
ecall
add x9, x9, x10
xor x9, x9, x14
srli x29, x9, 16
xor x29, x29, x9
andi x29, x29, 1
slli x29, x29, 12
add x29, x29, x8
lw x14, 64(x29)
addi x13, x13, 3
addi x10, x10, 1
add x9, x9, x13
andi x29, x9, 1
slli x29, x29, 12
add x29, x29, x8
lw x10, 64(x29)
jal x0, -104
