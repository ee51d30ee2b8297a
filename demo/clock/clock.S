# Waits by `wfi`, and prints the time at each interrupt of the timer; the fourth ends the test by `pass`, and an
# exception by `fail 1`.
        .equ UART, 0x10000000
        .equ MTIMECMP, 0x02004000
        .equ FINISHER, 0x100000
        .equ PERIOD, 500        # ticks of mtime, which are microseconds on this board

        .section .start, "ax"
        .globl _start
_start: la t0, vectors + 1      # bit 0: an interrupt n goes to `vectors` + 4 n
        csrw mtvec, t0
        li s0, UART
        li s1, MTIMECMP
        li s2, PERIOD           # the time of the next tick
        li s3, 4                # the ticks to come
        sw s2, 0(s1)            # the upper half was all ones: no tick before it is 0
        sw zero, 4(s1)
        li t0, 1 << 7
        csrw mie, t0            # the timer
        csrsi mstatus, 8        # MIE
wait:   wfi
        j wait

        .balign 4               # mtvec has no bit 1
vectors:
        j wrong                 # exceptions
        .zero 24                # 1 to 6
        j tick                  # 7, the timer

tick:   csrr s4, time           # its low 32 bits
        addi s2, s2, PERIOD
        sw s2, 0(s1)
        li s5, 1000             # four digits
        li s6, 10
digit:  divu t0, s4, s5
        remu t0, t0, s6
        addi t0, t0, '0'
        sb t0, 0(s0)
        divu s5, s5, s6
        bnez s5, digit
        la t1, unit
text:   lbu t0, 0(t1)
        sb t0, 0(s0)
        addi t1, t1, 1
        lbu t0, 0(t1)
        bnez t0, text
        addi s3, s3, -1
        beqz s3, right
        mret

right:  li t0, 0x5555           # pass
        j end
wrong:  li t0, 0x00013333       # fail 1
end:    li t1, FINISHER
        sw t0, 0(t1)
        j .

unit:   .asciz " us\n"
