# each share has its register, but both are stored one after the other
        lui  x1, 0x10
        lw   x2, 0(x1)
        lw   x3, 32(x1)
        lw   x4, 8(x1)
        sw   x2, 16(x1)
        sw   x4, 24(x1)
