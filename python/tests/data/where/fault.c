/* Comes to a word that is no instruction, in a function that main has called. */
#include "hart.h"

extern void trap_entry(void);

static volatile uint32_t last_cause;

void handle_trap(uint32_t cause)
{
    last_cause = cause;
    for (;;) {
    }
}

static uint32_t half_of(uint32_t number)
{
    if (number & 1)
        __asm__ volatile(".word 0xffffffff");
    return number / 2;
}

int main(void)
{
    set_trap_handler(trap_entry);
    return half_of(half_of(6));
}
