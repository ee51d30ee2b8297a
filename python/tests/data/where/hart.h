/* What the programs here use of the processor and of the board. */
#include <stdint.h>

#define UART ((volatile uint8_t *)0x10000000)
#define CAN ((volatile uint8_t *)0x10001000)
#define MIE_EXTERNAL (1u << 11)
#define MSTATUS_MIE (1u << 3)

static inline void set_trap_handler(void (*handler)(void))
{
    __asm__ volatile("csrw mtvec, %0" : : "r"(handler));
}

static inline void interrupts_on(uint32_t which)
{
    __asm__ volatile("csrw mie, %0" : : "r"(which));
    __asm__ volatile("csrs mstatus, %0" : : "r"(MSTATUS_MIE));
}

static inline void wait_for_interrupt(void)
{
    __asm__ volatile("wfi");
}
