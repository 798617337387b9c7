lui x5, 3
lui x6, 3
addi x28, x5, 1984
lr.w.aq x15, (x28)
sc.w x13, x13, (x28)
addi x15, x15, 3
addi x13, x13, 3
jal x0, -20
