# Sets the UART, the interrupt controller and the processor by the words at 0x80008000, which a script has written, and
# stays. Its handler of interrupts claims nothing.
        .section .start, "ax"
        .globl _start
_start: la t0, handler
        csrw mtvec, t0
        li s0, 0x80008000
        li s1, 0x0C000000       # the interrupt controller
        li s2, 0x10000000       # the UART
        lw t0, 0(s0)
        sb t0, 1(s2)            # IER
        lw t0, 4(s0)
        sw t0, 4(s1)            # the priority of source 1
        li t1, 0x0C002000
        lw t0, 8(s0)
        sw t0, 0(t1)            # what context 0 enables
        lw t0, 12(s0)
        sw t0, 0x80(t1)         # what context 1 enables
        li t1, 0x0C200000
        lw t0, 16(s0)
        sw t0, 0(t1)            # the threshold of context 0
        lw t0, 20(s0)
        csrw mie, t0
        lw t0, 24(s0)
        beqz t0, 1f
        lw t0, 4(t1)            # a claim
1:      lw t0, 28(s0)
        csrw mstatus, t0
stay:   j stay
        .balign 4
        .globl handler
handler:
        j handler
