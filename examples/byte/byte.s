# Puts the byte A and exits with 0. The words of byte.bin, at address 0:
    addi a0, x0, 65     # 04100513
    addi a7, x0, 1      # 00100893  call 1 puts the low byte of a0
    ecall               # 00000073
    addi a0, x0, 0      # 00000513
    addi a7, x0, 2      # 00200893  call 2 exits with a0
    ecall               # 00000073
