addi x5, x0, 0
addi x6, x0, 0
addi x7, x0, 0
lh x13, 10(x7)
sh x13, 4(x7)
lr.w.aq x13, (x5)
lw x13, 0(x5)
addi x17, x0, 1
ecall
fence.tso
lhu x13, 0(x6)
addi x14, x14, 1
addi x10, x10, 1
jal x0, -40
