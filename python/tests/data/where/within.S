# Its trap handler comes to a word that is no instruction, which traps to the handler again.
        .section .start, "ax"
        .globl _start
_start: la t0, handler
        csrw mtvec, t0
        ecall
        .balign 4
        .globl handler
handler:
        li a0, 1
        li a1, 2
        .word 0xffffffff
