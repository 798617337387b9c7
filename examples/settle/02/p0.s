lui x5, 5
lui x8, 5
addi x13, x13, 1
sw x10, 0(x5)
sw x13, 0(x5)
addi x28, x5, 0
amoswap.w.aq x14, x15, (x28)
andi x29, x14, 1
slli x29, x29, 12
add x29, x29, x8
lw x15, 0(x29)
addi x10, x10, 3
addi x14, x14, 1
jal x0, -44
