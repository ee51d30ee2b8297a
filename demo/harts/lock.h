/* Atomic addition, and a spin lock by LR and SC (RISC-V Unprivileged ISA, chapter 8). */
#include <stdint.h>

typedef volatile uint32_t lock_t; /* 1 while a hart has it */

static inline void add(volatile uint32_t *word, uint32_t n)
{
    __asm__ volatile("amoadd.w zero, %1, (%0)" : : "r"(word), "r"(n) : "memory");
}

static inline void acquire(lock_t *lock)
{
    uint32_t word;
    __asm__ volatile("1: lr.w.aq %0, (%1)\n"
                     "   bnez %0, 1b\n"
                     "   sc.w %0, %2, (%1)\n"
                     "   bnez %0, 1b"
                     : "=&r"(word)
                     : "r"(lock), "r"(1)
                     : "memory");
}

static inline void release(lock_t *lock)
{
    __asm__ volatile("amoswap.w.rl zero, zero, (%0)" : : "r"(lock) : "memory");
}
