# SB_amos, thread 0: amoswap.w x = 1, then reads y; puts what it read. The words of p0.bin, at address 0:
    lui x5, 1               # 000012b7  x is the word at 0x1000
    lui x6, 2               # 00002337  y is the word at 0x2000
    addi x7, x0, 1          # 00100393
    amoswap.w x0, x7, (x5)  # 0872a02f  x = 1, in one step
    lw a0, 0(x6)            # 00032503  reads y
    addi a7, x0, 1          # 00100893  call 1 puts the low byte of a0
    ecall                   # 00000073
    addi a0, x0, 0          # 00000513
    addi a7, x0, 2          # 00200893  call 2 exits with a0
    ecall                   # 00000073
