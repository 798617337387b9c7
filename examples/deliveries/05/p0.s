lui x5, 10
lui x6, 11
lui x7, 10
lui x8, 10
fence iorw, iorw
sw x14, 128(x7)
lbu x13, 128(x5)
andi x29, x13, 1
slli x29, x29, 12
add x29, x29, x8
lw x15, 128(x29)
addi x15, x10, 7
addi x13, x13, 1
addi x15, x15, 1
jal x0, -40
