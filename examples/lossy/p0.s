# Thread 0: x = 65, then y = 1. The words of p0.bin, at address 0:
    lui x5, 1               # 000012b7  x is the word at 0x1000
    lui x6, 2               # 00002337  y is the word at 0x2000
    addi x7, x0, 65         # 04100393
    addi x8, x0, 1          # 00100413
    sw x7, 0(x5)            # 0072a023  x = 65
    sw x8, 0(x6)            # 00832023  y = 1
    addi a0, x0, 0          # 00000513
    addi a7, x0, 2          # 00200893  call 2 exits with a0
    ecall                   # 00000073
