# Loads from a page that is not mapped. The words of load.bin, at address 0:
    lui x5, 3               # 000032b7
    lw a0, 0(x5)            # 0002a503  the word at 0x3000
