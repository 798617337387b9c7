lui x5, 6
lui x6, 5
lui x7, 6
addi x14, x0, 3
lui x8, 4
addi x10, x10, 1
sw x10, 64(x7)
lb x15, 64(x5)
andi x29, x15, 1
slli x29, x29, 12
add x29, x29, x8
lw x13, 64(x29)
.word 0x00000000
addi x13, x13, 2
add x9, x9, x10
srli x29, x9, 1
xor x29, x29, x9
andi x29, x29, 1
slli x29, x29, 12
add x29, x29, x8
lw x14, 64(x29)
addi x10, x10, 3
addi x14, x14, 1
add x9, x9, x15
andi x29, x9, 1
slli x29, x29, 12
add x29, x29, x8
lw x15, 64(x29)
jal x0, -92
