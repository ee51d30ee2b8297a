# sends the bytes of the text at 0x80000100, each 100 microseconds after the one before, and clears them
        lui x5, 0x10000         # the UART
start:  lui x6, 0x80000
        addi x6, x6, 0x100      # the text
next:   lbu x7, 0(x6)
        beq x7, x0, start       # nothing is to be typed: look again
        sb x7, 0(x5)
        sb x0, 0(x6)
        addi x6, x6, 1
        lui x8, 0x80000
        lw x8, 0xfc(x8)         # 46 turns of the loop: a byte takes 8 + 2 * 46 instructions
wait:   addi x8, x8, -1
        bne x8, x0, wait
        jal x0, next
