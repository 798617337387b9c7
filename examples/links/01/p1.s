lui x5, 3
lui x6, 3
addi x10, x0, -1
sw x0, 64(x6)
lh x10, 64(x6)
andi x29, x10, 1
slli x29, x29, 6
add x29, x29, x5
sw x10, 0(x29)
addi x13, x13, 1
addi x10, x10, 3
jal x0, -32
