addi x5, x0, 0
addi x6, x0, 0
addi x7, x0, 0
addi x13, x0, 2
addi x15, x0, 3
fence w, r
lb x15, 0(x6)
sb x13, 0(x5)
addi x6, x0, 0
beq x15, x0, 8
lw x13, 0(x5)
andi x29, x13, 1
slli x29, x29, 6
add x29, x29, x6
sw x10, 0(x29)
sh x15, 0(x7)
lw x13, 0(x6)
beq x14, x0, 8
lb x15, 0(x5)
addi x10, x10, 1
addi x15, x15, 1
addi x17, x0, 2
ecall
