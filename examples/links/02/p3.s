lui x5, 1
lui x6, 4
addi x7, x0, 0
addi x13, x0, 2
addi x8, x0, 0
addi x10, x10, 3
sw x10, 0(x5)
sw x10, 0(x5)
addi x28, x7, 0
amoswap.w.aq x13, x15, (x28)
andi x29, x13, 1
slli x29, x29, 12
add x29, x29, x8
lw x14, 0(x29)
addi x10, x10, 3
lb x15, 1987(x7)
sw x10, 0(x7)
lw x14, 0(x7)
andi x29, x14, 1
slli x29, x29, 12
add x29, x29, x8
lw x10, 0(x29)
addi x15, x15, 1
addi x13, x13, 1
add x9, x9, x13
srli x29, x9, 8
xor x29, x29, x9
andi x29, x29, 1
slli x29, x29, 12
add x29, x29, x8
lw x14, 0(x29)
jal x0, -104
