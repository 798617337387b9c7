# 2+2W, thread 1: y = 1, then x = 2. The words of p1.bin, at address 0:
    lui x5, 1               # 000012b7  x is the word at 0x1000
    lui x6, 2               # 00002337  y is the word at 0x2000
    addi x7, x0, 1          # 00100393
    addi x28, x0, 2         # 00200e13
    sw x7, 0(x6)            # 00732023  y = 1
    sw x28, 0(x5)           # 01c2a023  x = 2
    addi a0, x0, 0          # 00000513
    addi a7, x0, 2          # 00200893  call 2 exits with a0
    ecall                   # 00000073
