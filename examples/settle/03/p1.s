lui x5, 11
lui x6, 9
addi x15, x0, 3
addi x14, x0, 2
lui x8, 10
lr.w.aq x14, (x5)
amomax.w x13, x13, (x5)
add x9, x9, x10
xor x9, x9, x10
andi x29, x9, 1
slli x29, x29, 12
add x29, x29, x8
lw x10, 1984(x29)
jal x0, -32
