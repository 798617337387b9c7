# Thread 0: stores a word, a byte, a halfword and a byte into one word x, then reads x; puts its bytes, lowest first. The
# words of p0.bin, at address 0:
    lui x5, 1               # 000012b7  x is the word at 0x1000
    lui x6, 0x44332         # 44332337
    addi x6, x6, 0x211      # 21130313
    addi x7, x0, 0xaa       # 0aa00393
    lui x8, 0xe             # 0000e437
    addi x8, x8, -0x245     # dbb40413  0xddbb
    addi x9, x0, 0xcc       # 0cc00493
    sw x6, 0(x5)            # 0062a023  bytes 0 to 3 are 11 22 33 44
    sb x7, 1(x5)            # 007280a3  byte 1 is aa
    sh x8, 2(x5)            # 00829123  bytes 2 and 3 are bb dd
    sb x9, 3(x5)            # 009281a3  byte 3 is cc
    lw a0, 0(x5)            # 0002a503  reads x
    addi a7, x0, 1          # 00100893  call 1 puts the low byte of a0
    ecall                   # 00000073
    srli a0, a0, 8          # 00855513
    ecall                   # 00000073
    srli a0, a0, 8          # 00855513
    ecall                   # 00000073
    srli a0, a0, 8          # 00855513
    ecall                   # 00000073
    addi a0, x0, 0          # 00000513
    addi a7, x0, 2          # 00200893  call 2 exits with a0
    ecall                   # 00000073
