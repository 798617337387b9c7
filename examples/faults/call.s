# Makes an environment call that there is not. The words of call.bin, at address 0:
    addi a7, x0, 4          # 00400893
    ecall                   # 00000073
