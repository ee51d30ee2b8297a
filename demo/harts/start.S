# Start-up code of each hart: 4 KiB of stack of its own, `main` with its number, and then, on hart 0, the finisher, which
# is told what `main` returns: 0 is `pass`, and another number N is `fail N`. The memory begins as zeros, so .bss does too.
        .section .start, "ax"
        .globl _start
_start: csrr a0, mhartid
        la sp, __stack
        slli t0, a0, 12
        sub sp, sp, t0
        call main
        lui t0, 0x100           # the finisher
        li t1, 0x5555
        beqz a0, 1f
        slli a0, a0, 16
        li t1, 0x3333
        or t1, t1, a0
1:      sw t1, 0(t0)
2:      j 2b
