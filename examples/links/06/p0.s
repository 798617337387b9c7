lui x5, 6
lui x6, 6
lui x7, 6
addi x13, x0, 1
addi x15, x0, 1
sb x14, 2(x7)
bne x15, x14, 8
addi x13, x0, 1
bne x14, x0, 8
lw x13, 0(x6)
lui x5, 6
bne x10, x10, 8
sw x13, 8(x5)
lb x14, 62(x7)
addi x10, x15, 1
sw x10, 8(x7)
sw x15, 0(x5)
addi x15, x15, 1
fence r, w
amomin.w.rl x14, x15, (x5)
lui x7, 6
addi x15, x14, 7
addi x28, x6, 0
sc.w.rl x14, x0, (x28)
addi x30, x0, 2
sh x13, 0(x7)
addi x30, x30, -1
bne x30, x0, -8
fence rw, rw
addi x13, x13, 1
addi x10, x10, 1
jal x0, -104
