lui x5, 101
lui x6, 101
lui x7, 101
addi x15, x0, 1
addi x10, x0, 2
fence r, w
bne x15, x10, 8
addi x15, x0, 1
sh x0, 60(x5)
lr.w.aqrl x15, (x7)
sc.w x13, x10, (x7)
jal x0, -24
