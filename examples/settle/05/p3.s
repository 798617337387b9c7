lui x5, 6
lui x6, 6
lui x8, 5
sh x13, 2(x5)
andi x29, x13, 1
slli x29, x29, 6
add x29, x29, x6
sw x15, 0(x29)
lbu x10, 0(x5)
addi x10, x10, 3
addi x13, x13, 3
jal x0, -32
