lui x5, 10
lui x6, 10
lui x7, 9
lui x8, 9
sw x10, 0(x7)
addi x28, x5, 0
amoswap.w.aq x15, x15, (x28)
andi x29, x15, 1
slli x29, x29, 12
add x29, x29, x8
lw x13, 0(x29)
addi x10, x10, 1
addi x15, x15, 3
add x9, x9, x10
andi x29, x9, 1
slli x29, x29, 12
add x29, x29, x8
lw x10, 0(x29)
jal x0, -56
