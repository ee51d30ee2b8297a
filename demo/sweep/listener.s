# looks every 150 slots whether a byte is there: `pass`; after 20 looks without one it gives up: `fail 1`
        lui x5, 0x10000         # the UART
        lui x6, 0x100           # the finisher
        addi x7, x0, 3          # FIFOs on, and the receiver empty
        addi x8, x0, 20         # how many looks
look:   lbu x9, 5(x5)           # line status
        andi x9, x9, 1
        bne x9, x0, there
        sb x7, 2(x5)            # the mistake: a byte that has come in the three slots since the look is thrown away
        addi x10, x0, 71
rest:   addi x10, x10, -1
        bne x10, x0, rest
        addi x8, x8, -1
        addi x0, x0, 0
        bne x8, x0, look
        lui x9, 0x13
        addi x9, x9, 0x333      # 0x00013333: fail 1
        sw x9, 0(x6)
stay:   jal x0, stay
there:  lui x9, 0x5
        addi x9, x9, 0x555      # 0x5555: pass
        sw x9, 0(x6)
        jal x0, stay
