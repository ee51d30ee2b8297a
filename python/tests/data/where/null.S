# Never sets mtvec, and comes to a word that is no instruction. No memory is at 0, so it traps there without an end.
        .section .start, "ax"
        .globl _start
_start: li a0, 1
        li a1, 2
        add a0, a0, a1
        .word 0xffffffff
