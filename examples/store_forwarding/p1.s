# Thread 1: reads x twice; puts what it read. The words of p1.bin, at address 0:
    lui x5, 1               # 000012b7  x is the word at 0x1000
    lw x8, 0(x5)            # 0002a403  reads x
    lw x9, 0(x5)            # 0002a483  reads x again
    addi a7, x0, 1          # 00100893  call 1 puts the low byte of a0
    addi a0, x8, 0          # 00040513
    ecall                   # 00000073
    addi a0, x9, 0          # 00048513
    ecall                   # 00000073
    addi a0, x0, 0          # 00000513
    addi a7, x0, 2          # 00200893  call 2 exits with a0
    ecall                   # 00000073
