# Start-up code that gives all harts one stack, and calls `main` with the number of each.
        .section .start, "ax"
        .globl _start
_start: la sp, __stack
        csrr a0, mhartid
        call main
stay:   j stay
