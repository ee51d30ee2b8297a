# Each hart begins here. Hart 0 goes on to the library's start-up code, which clears .bss and calls `main`. Hart 1
# waits for its software interrupt, by which `main` says that the memory is ready, and has a stack of its own.
        .globl first
        .text
first:  csrr t0, mhartid
        bnez t0, 1f
        tail _start
1:      csrwi mie, 8
2:      wfi
        csrr t0, mip
        andi t0, t0, 8
        beqz t0, 2b
        .option push
        .option norelax
        la gp, __global_pointer$
        .option pop
        la sp, second_stack + 2048
        tail second
