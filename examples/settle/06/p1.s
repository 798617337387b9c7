lui x5, 11
lui x6, 11
addi x15, x0, 2
addi x28, x6, 68
amomin.w.aq x13, x14, (x28)
addi x10, x10, 1
addi x13, x13, 3
