# Thread 0: x = 1, then reads x; puts what it read. The words of p0.bin, at address 0:
    lui x5, 1               # 000012b7  x is the word at 0x1000
    addi x7, x0, 1          # 00100393
    sw x7, 0(x5)            # 0072a023  x = 1
    lw a0, 0(x5)            # 0002a503  reads x
    addi a7, x0, 1          # 00100893  call 1 puts the low byte of a0
    ecall                   # 00000073
    addi a0, x0, 0          # 00000513
    addi a7, x0, 2          # 00200893  call 2 exits with a0
    ecall                   # 00000073
