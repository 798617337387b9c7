lui x5, 8
lui x6, 8
addi x28, x6, 1984
amomin.w.rl x15, x10, (x28)
andi x29, x13, 1
slli x29, x29, 6
add x29, x29, x5
lw x14, 0(x29)
andi x29, x14, 3
slli x29, x29, 6
add x29, x29, x5
sw x13, 0(x29)
lui x6, 8
lr.w.aqrl x14, (x5)
sc.w.aqrl x15, x0, (x5)
sw x15, 1984(x6)
amomaxu.w.aq x13, x10, (x6)
sw x10, 1984(x5)
lr.w x10, (x6)
sw x0, 1984(x5)
addi x15, x13, 2
lh x15, 1984(x5)
sw x14, 1984(x6)
lbu x13, 1984(x5)
lr.w.aq x15, (x5)
sh x10, 1984(x5)
addi x10, x10, 1
addi x14, x14, 3
jal x0, -104
