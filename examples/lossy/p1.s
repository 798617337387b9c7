# Thread 1: reads y until it is not 0, then reads x; puts what it read there. The words of p1.bin, at address 0:
    lui x5, 1               # 000012b7  x is the word at 0x1000
    lui x6, 2               # 00002337  y is the word at 0x2000
wait:
    lw x8, 0(x6)            # 00032403  reads y
    beq x8, x0, wait        # fe040ee3
    lw a0, 0(x5)            # 0002a503  reads x
    addi a7, x0, 1          # 00100893  call 1 puts the low byte of a0
    ecall                   # 00000073
    addi a0, x0, 0          # 00000513
    addi a7, x0, 2          # 00200893  call 2 exits with a0
    ecall                   # 00000073
