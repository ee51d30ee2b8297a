# sends back what it receives, small letters as capital ones
        lui x5, 0x10000         # the UART
        addi x6, x0, 1
        sb x6, 2(x5)            # FIFOs on
wait:   lbu x7, 5(x5)           # line status
        andi x7, x7, 1
        beq x7, x0, wait
        lbu x7, 0(x5)
        addi x8, x7, -97        # a small letter, if that is below 26
        sltiu x8, x8, 26
        slli x8, x8, 5
        sub x7, x7, x8
        sb x7, 0(x5)
        jal x0, wait
