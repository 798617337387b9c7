# Stops at a breakpoint. The word of break.bin, at address 0:
    ebreak                  # 00100073
