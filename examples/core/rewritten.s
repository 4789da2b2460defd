# copies both shares of the key
        lui  x1, 0x10
        lw   x2, 0(x1)
        sw   x2, 16(x1)
        addi x2, x0, 0        # the register is cleared, and its share is gone from the read trees
        lw   x3, 32(x1)       # the memory's answer is a word of zeros
        lw   x4, 8(x1)
        sw   x4, 24(x1)
