# Thread 2: z = 7, on the page of x and in the granule behind its granule. The words of p2.bin, at address 0:
    lui x5, 1               # 000012b7
    addi x7, x0, 7          # 00700393
    sw x7, 64(x5)           # 0472a023  z, the word at 0x1040, = 7
    addi a0, x0, 0          # 00000513
    addi a7, x0, 2          # 00200893  call 2 exits with a0
    ecall                   # 00000073
