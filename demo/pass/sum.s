# adds the numbers from 1 to 10, and tells the finisher whether that is 55: `pass`, or `fail 3`
        addi x5, x0, 10
        addi x6, x0, 0
more:   add x6, x6, x5
        addi x5, x5, -1
        bne x5, x0, more
        lui x7, 0x100           # the finisher
        addi x8, x0, 55
        bne x6, x8, wrong
        lui x9, 0x5
        addi x9, x9, 0x555      # 0x5555: pass
        sw x9, 0(x7)
stay:   jal x0, stay
wrong:  lui x9, 0x33
        addi x9, x9, 0x333      # 0x00033333: fail 3
        sw x9, 0(x7)
        jal x0, stay
