# Has a word that is no instruction. The word of illegal.bin, at address 0:
    .word 0xffffffff        # ffffffff
