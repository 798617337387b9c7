lui x5, 10
lui x6, 10
lui x7, 9
addi x13, x0, 1
sw x13, 128(x5)
addi x28, x6, 128
lr.w x15, (x28)
sc.w x10, x13, (x28)
amoand.w.aqrl x14, x15, (x6)
lui x6, 10
amomax.w.aq x15, x14, (x5)
andi x29, x14, 1
slli x29, x29, 12
add x29, x29, x7
sw x10, 0(x29)
lw x15, 128(x5)
sh x0, 128(x5)
addi x30, x0, 3
sw x0, 128(x7)
addi x30, x30, -1
bne x30, x0, -8
sw x14, 128(x6)
sw x15, 128(x5)
lhu x10, 128(x6)
bne x13, x0, 8
sb x0, 128(x6)
addi x15, x14, 1
sb x13, 128(x5)
addi x15, x15, 1
addi x13, x13, 1
jal x0, -104
