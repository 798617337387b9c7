# R, thread 2: reads y at the end and puts what it read. The words of p2.bin, at address 0:
    lui x6, 2               # 00002337  y is the word at 0x2000
    lw a0, 0(x6)            # 00032503  reads y
    addi a7, x0, 1          # 00100893  call 1 puts the low byte of a0
    ecall                   # 00000073
    addi a0, x0, 0          # 00000513
    addi a7, x0, 2          # 00200893  call 2 exits with a0
    ecall                   # 00000073
