lui x5, 2
lui x6, 2
addi x7, x0, 0
addi x10, x0, 3
lui x8, 1
sw x10, 0(x5)
add x9, x9, x15
xor x9, x9, x10
andi x29, x9, 1
slli x29, x29, 12
add x29, x29, x8
lw x13, 0(x29)
jal x0, -28
