# Start-up code of each hart: 4 KiB of stack of its own, and `main` with its number.
        .section .start, "ax"
        .globl _start
_start: csrr a0, mhartid
        la sp, __stack
        slli t0, a0, 12
        sub sp, sp, t0
        call main
stay:   j stay
