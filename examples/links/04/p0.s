addi x5, x0, 0
addi x14, x0, 3
addi x15, x0, -1
addi x17, x0, 1
ecall
sw x14, 64(x5)
bne x10, x10, 8
addi x14, x0, 1
lw x14, 64(x5)
lw x14, 64(x5)
sw x13, 64(x5)
sw x10, 64(x5)
andi x29, x15, 1
slli x29, x29, 12
add x29, x29, x5
lw x13, 0(x29)
.word 0x8120000f
addi x30, x0, 2
lhu x14, 64(x5)
addi x30, x30, -1
bne x30, x0, -8
lbu x15, 64(x5)
sh x15, 64(x5)
sh x13, 64(x5)
sw x0, 64(x5)
sw x13, 64(x5)
lw x14, 64(x5)
addi x14, x14, 1
addi x10, x10, 3
jal x0, -104
