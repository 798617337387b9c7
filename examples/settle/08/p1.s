lui x5, 1048575
lui x6, 1048574
lui x7, 1048575
addi x10, x0, 3
lui x8, 1048574
sh x15, 1984(x7)
sw x10, 1984(x7)
addi x28, x7, 1984
lr.w.aq x14, (x28)
lb x13, 1984(x5)
addi x28, x7, 1984
sc.w.aq x14, x10, (x28)
andi x29, x14, 1
slli x29, x29, 12
add x29, x29, x8
lw x10, 1984(x29)
addi x17, x0, 1
ecall
addi x13, x13, 1
addi x14, x14, 3
add x9, x9, x13
xor x9, x9, x14
andi x29, x9, 1
slli x29, x29, 12
add x29, x29, x8
lw x10, 1984(x29)
jal x0, -84
