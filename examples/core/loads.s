# copies both shares of the key: loads both, one after the other
        lui  x1, 0x10
        lw   x2, 0(x1)
        lw   x4, 8(x1)
