# Jumps to 6, which is no multiple of 4. The word of target.bin, at address 0:
    jalr x0, 6(x0)          # 00600067
