# accepts each frame, and answers the first one by a frame 2a8 with its first byte plus 1
        lui x5, 0x10001         # the CAN controller
        addi x6, x0, 255
        sb x6, 5(x5)            # acceptance mask: any
        sb x0, 0(x5)            # operating mode
wait:   lbu x6, 2(x5)           # status
        andi x6, x6, 1          # a frame is held
        beq x6, x0, wait
        lbu x6, 22(x5)
        addi x6, x6, 1
        sb x6, 12(x5)
        addi x6, x0, 0x55       # the identifier, bits 10 to 3
        sb x6, 10(x5)
        addi x6, x0, 1          # bits 2 to 0, and one byte
        sb x6, 11(x5)
        addi x6, x0, 5          # release the received frame, transmission request
        sb x6, 1(x5)
stop:   jal x0, stop
