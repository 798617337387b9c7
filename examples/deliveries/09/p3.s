lui x5, 8
lui x6, 8
addi x14, x0, -1
lui x8, 8
amomin.w.aqrl x10, x14, (x6)
sw x13, 64(x6)
sw x10, 64(x5)
addi x17, x0, 1
ecall
sb x15, 64(x5)
lhu x15, 64(x5)
andi x29, x10, 1
slli x29, x29, 6
add x29, x29, x5
amomaxu.w x13, x13, (x29)
add x9, x9, x13
andi x29, x9, 1
slli x29, x29, 12
add x29, x29, x8
lw x15, 64(x29)
jal x0, -64
