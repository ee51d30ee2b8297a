/* Interrupts of the processor. */
#include <stdint.h>

#define MSTATUS_MIE (1u << 3)
#define MIE_TIMER (1u << 7)
#define MIE_EXTERNAL (1u << 11)

/* Calls the handler at these interrupts. It stands at a multiple of 4, `aligned(4)`, since mtvec has no bit 1. */
static inline void interrupts_on(void (*handler)(void), uint32_t mie)
{
    __asm__ volatile("csrw mtvec, %0" : : "r"(handler));
    __asm__ volatile("csrw mie, %0" : : "r"(mie));
    __asm__ volatile("csrs mstatus, %0" : : "r"(MSTATUS_MIE));
}

static inline void wait_for_interrupt(void)
{
    __asm__ volatile("wfi");
}
