# Sends three bytes and a frame, and traps, with its stack and its trap handler where nothing is.
        .section .start, "ax"
        .globl _start
_start: li sp, 0x70000000
        li t0, 0x20000000
        csrw mtvec, t0
        li t0, 0x10000000       # the UART
        li t1, 'h'
        sb t1, 0(t0)
        li t1, '"'
        sb t1, 0(t0)
        li t1, 0x07
        sb t1, 0(t0)
        li t0, 0x10001000       # the CAN controller
        sb zero, 0(t0)          # operating mode
        li t1, 0x24
        sb t1, 10(t0)
        li t1, 0x62
        sb t1, 11(t0)           # identifier 0x123, two bytes
        li t1, 0xab
        sb t1, 12(t0)
        li t1, 0xcd
        sb t1, 13(t0)
        li t1, 1
        sb t1, 1(t0)            # transmit it
        ebreak
