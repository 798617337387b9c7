# Thread 1: x = 5. The words of p1.bin, at address 0:
    lui x5, 1               # 000012b7  x is the word at 0x1000
    addi x7, x0, 5          # 00500393
    sw x7, 0(x5)            # 0072a023  x = 5
    addi a0, x0, 0          # 00000513
    addi a7, x0, 2          # 00200893  call 2 exits with a0
    ecall                   # 00000073
