# Runs past the end of its image. The word of fetch.bin, at address 0:
    addi x0, x0, 0          # 00000013
