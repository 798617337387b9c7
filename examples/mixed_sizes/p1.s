# Thread 1: reads x five times; puts its bytes, lowest first, each time. The words of p1.bin, at address 0:
    lui x5, 1               # 000012b7  x is the word at 0x1000
    addi x9, x0, 5          # 00500493  how often the thread still reads
    addi a7, x0, 1          # 00100893  call 1 puts the low byte of a0
again:
    lw a0, 0(x5)            # 0002a503  reads x
    ecall                   # 00000073
    srli a0, a0, 8          # 00855513
    ecall                   # 00000073
    srli a0, a0, 8          # 00855513
    ecall                   # 00000073
    srli a0, a0, 8          # 00855513
    ecall                   # 00000073
    addi x9, x9, -1         # fff48493
    bne x9, x0, again       # fc049ee3
    addi a0, x0, 0          # 00000513
    addi a7, x0, 2          # 00200893  call 2 exits with a0
    ecall                   # 00000073
