lui x5, 4
addi x15, x0, -1
addi x10, x0, 1
lui x8, 5
lbu x10, 1984(x5)
andi x29, x10, 1
slli x29, x29, 12
add x29, x29, x8
lw x15, 1984(x29)
sw x15, 1988(x5)
addi x14, x14, 3
addi x10, x10, 1
add x9, x9, x10
srli x29, x9, 8
xor x29, x29, x9
andi x29, x29, 1
slli x29, x29, 12
add x29, x29, x8
lw x13, 1984(x29)
jal x0, -60
