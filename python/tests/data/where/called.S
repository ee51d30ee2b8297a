# Its trap handler calls a function that comes to a word that is no instruction.
        .section .start, "ax"
        .globl _start
_start: la sp, __stack
        la t0, handler
        csrw mtvec, t0
        ecall
        .balign 4
        .globl handler
handler:
        addi sp, sp, -16
        sw ra, 12(sp)
        call report
        lw ra, 12(sp)
        addi sp, sp, 16
        mret
        .globl report
report: csrr a0, mcause
        .word 0xffffffff
