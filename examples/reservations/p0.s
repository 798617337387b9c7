# Thread 0: adds 1 to x with LR and SC, once, then reads x; puts what SC gave and what it read. The words of p0.bin, at
# address 0:
    lui x5, 1               # 000012b7  x is the word at 0x1000
    lr.w x8, (x5)           # 1002a42f  reads x and reserves its granule, the 64 bytes from 0x1000
    addi x8, x8, 1          # 00140413
    sc.w a0, x8, (x5)       # 1882a52f  stores and gives 0 where the reservation is kept, else gives 1
    addi a7, x0, 1          # 00100893  call 1 puts the low byte of a0
    ecall                   # 00000073
    lw a0, 0(x5)            # 0002a503  reads x
    ecall                   # 00000073
    addi a0, x0, 0          # 00000513
    addi a7, x0, 2          # 00200893  call 2 exits with a0
    ecall                   # 00000073
