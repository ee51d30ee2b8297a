# The trap handler: it stores what functions may change, and calls handle_trap with the cause.
        .text
        .globl trap_entry
        .balign 4
trap_entry:
        addi sp, sp, -64
        sw ra, 60(sp)
        sw a0, 56(sp)
        sw a1, 52(sp)
        sw t0, 48(sp)
        csrr a0, mcause
        call handle_trap
        lw t0, 48(sp)
        lw a1, 52(sp)
        lw a0, 56(sp)
        lw ra, 60(sp)
        addi sp, sp, 64
        mret
