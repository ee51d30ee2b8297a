# prints a line at each tick of the timer, every 250 microseconds, and waits in between
        lui x5, 0x10000         # the UART
        lui x6, 0x2004          # mtimecmp
        auipc x7, 0
        addi x7, x7, 44         # `tick`, 44 bytes after the auipc
        csrrw x0, 0x305, x7     # mtvec
        addi x8, x0, 250
        sw x8, 0(x6)
        sw x0, 4(x6)
        addi x7, x0, 0x80
        csrrw x0, 0x304, x7     # mie: the timer
        csrrwi x0, 0x300, 8     # mstatus: MIE
wait:   wfi
        jal x0, wait
tick:   addi x8, x8, 250
        sw x8, 0(x6)            # the next tick
        addi x7, x0, 0x74       # t
        sb x7, 0(x5)
        addi x7, x0, 0x69       # i
        sb x7, 0(x5)
        addi x7, x0, 0x63       # c
        sb x7, 0(x5)
        addi x7, x0, 0x6b       # k
        sb x7, 0(x5)
        addi x7, x0, 10         # line feed
        sb x7, 0(x5)
        mret
