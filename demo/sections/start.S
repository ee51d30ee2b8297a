# Start-up code: the stack, the start values of .data out of the other memory, zeros for .bss, and `main`.
        .section .start, "ax"
        .globl _start
_start: la sp, __stack
        la t0, __data
        la t1, __data_end
        la t2, __data_rom
1:      bgeu t0, t1, 2f
        lw t3, 0(t2)
        sw t3, 0(t0)
        addi t0, t0, 4
        addi t2, t2, 4
        j 1b
2:      la t0, __bss
        la t1, __bss_end
3:      bgeu t0, t1, 4f
        sw zero, 0(t0)
        addi t0, t0, 4
        j 3b
4:      call main
5:      j 5b
