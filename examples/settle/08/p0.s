lui x5, 1048574
lui x6, 1048575
lui x8, 1048574
addi x13, x14, 1
sb x13, 1985(x5)
sw x15, 1984(x5)
addi x10, x10, 1
addi x15, x15, 1
add x9, x9, x15
srli x29, x9, 1
xor x29, x29, x9
andi x29, x29, 1
slli x29, x29, 12
add x29, x29, x8
lw x15, 1984(x29)
jal x0, -48
