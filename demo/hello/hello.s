# prints a line, and then runs in place
        lui x5, 0x10000         # the UART
        auipc x6, 0
        addi x6, x6, 32         # the text, 32 bytes after the auipc
next:   lbu x7, 0(x6)
        beq x7, x0, done
        sb x7, 0(x5)
        addi x6, x6, 1
        jal x0, next
done:   jal x0, done
        .word 0x6c6c6548        # Hell
        .word 0x6c202c6f        # o, l
        .word 0x0a216261        # ab!, line feed
        .word 0                 # the end
