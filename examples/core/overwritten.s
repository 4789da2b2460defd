# a word of zeros is loaded in between, but both shares go through x2
        lui  x1, 0x10
        lw   x2, 0(x1)
        sw   x2, 16(x1)
        lw   x3, 32(x1)
        lw   x2, 8(x1)
        sw   x2, 24(x1)
