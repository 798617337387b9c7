lui x5, 6
lui x6, 5
addi x10, x0, 2
addi x13, x0, 2
lui x8, 4
addi x15, x15, 1
sw x14, 72(x5)
lw x10, 64(x5)
addi x28, x5, 64
lr.w.rl x13, (x28)
sh x10, 66(x5)
addi x28, x5, 64
sc.w.aq x13, x10, (x28)
andi x29, x13, 1
slli x29, x29, 12
add x29, x29, x8
lw x10, 64(x29)
addi x15, x15, 3
addi x14, x14, 1
jal x0, -56
