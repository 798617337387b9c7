addi x5, x0, 0
addi x6, x0, 0
lw x10, 0(x6)
lr.w.rl x10, (x5)
sw x15, 72(x5)
sc.w.rl x10, x15, (x5)
addi x15, x15, 7
addi x13, x13, 1
addi x14, x14, 1
jal x0, -28
