# Loads from a page that it may only read, puts what it read, and then stores to that page. The words of store.bin, at
# address 0:
    lui x5, 2               # 000022b7
    lw a0, 0(x5)            # 0002a503  the word at 0x2000
    addi a7, x0, 1          # 00100893  call 1 puts the low byte of a0
    ecall                   # 00000073
    sw x5, 0(x5)            # 0052a023
