# Eight threads run this. Each takes the lock at 0x1000 and adds 1 to the counter at 0x2000, 25 times; thread 0 then waits
# until the counter is 200 and exits with it, the others exit with 0. The words of spin.bin, at address 0:
    lui x5, 1                   # 000012b7  the lock is the word at 0x1000: 0 where it is free
    lui x6, 2                   # 00002337  the counter is the word at 0x2000
    addi x9, x0, 25             # 01900493  how often the thread still counts
    addi a7, x0, 3              # 00300893  call 3 gives the number of the thread
    ecall                       # 00000073
    addi x12, a0, 0             # 00050613
    addi x7, x0, 1              # 00100393
take:
    amoswap.w.aq x8, x7, (x5)   # 0c72a42f  1 into the lock
    bne x8, x0, take            # fe041ee3  another thread has it
    lw x11, 0(x6)               # 00032583
    addi x11, x11, 1            # 00158593
    sw x11, 0(x6)               # 00b32023  the counter, before the lock is free
    sw x0, 0(x5)                # 0002a023
    addi x9, x9, -1             # fff48493
    bne x9, x0, take            # fe0492e3
    bne x12, x0, done           # 00061c63  thread 0 alone waits
    addi x13, x0, 200           # 0c800693
wait:
    lw a0, 0(x6)                # 00032503
    bne a0, x13, wait           # fed51ee3
    addi a7, x0, 2              # 00200893  call 2 exits with a0
    ecall                       # 00000073
done:
    addi a0, x0, 0              # 00000513
    addi a7, x0, 2              # 00200893
    ecall                       # 00000073
