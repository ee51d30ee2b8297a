# sends the frame 123 with two bytes
        lui x5, 0x10001         # the CAN controller
        sb x0, 0(x5)            # operating mode
        addi x6, x0, 0x24       # the identifier, bits 10 to 3
        sb x6, 10(x5)
        addi x6, x0, 0x62       # bits 2 to 0, and two bytes
        sb x6, 11(x5)
        addi x6, x0, 0x0a
        sb x6, 12(x5)
        addi x6, x0, 0x0b
        sb x6, 13(x5)
        addi x6, x0, 1          # transmission request
        sb x6, 1(x5)
stop:   jal x0, stop
