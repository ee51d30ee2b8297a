# waits for 33 turns of three slots and as many more as the word at 0x80000100 says, and sends a byte
        lui x5, 0x10000         # the UART
        lui x6, 0x80000
        lw x6, 0x100(x6)        # how many turns
        addi x6, x6, 33         # and those that its own work takes
turn:   addi x6, x6, -1
        addi x0, x0, 0
        bne x6, x0, turn
        addi x7, x0, 33
        sb x7, 0(x5)            # !
stay:   jal x0, stay
