lui x5, 12
lui x6, 11
addi x14, x0, 1
addi x10, x0, 3
lui x8, 10
amominu.w.rl x15, x15, (x5)
add x9, x9, x13
srli x29, x9, 16
xor x29, x29, x9
andi x29, x29, 1
slli x29, x29, 12
add x29, x29, x8
lw x10, 0(x29)
addi x13, x13, 1
addi x14, x14, 1
jal x0, -40
