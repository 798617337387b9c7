# Loads a word at an address that is no multiple of 4, on a page that it may read. The words of align.bin, at address 0:
    lui x5, 1               # 000012b7
    lw a0, 2(x5)            # 0022a503  the word at 0x1002
