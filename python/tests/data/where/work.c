/* Hart 0 counts, and serves the interrupt of its UART without an end. Hart 1 waits for one that never comes. */
#include "hart.h"

#define PRIORITY_OF_UART ((volatile uint32_t *)0x0C000004)
#define ENABLED_SOURCES ((volatile uint32_t *)0x0C002000)
#define CLAIM ((volatile uint32_t *)0x0C200004)
#define FIFOS_ON 1
#define RECEIVED_DATA 1

static volatile int is_done;

static void serve(void)
{
    while (!is_done) {
    }
}

__attribute__((interrupt("machine"), aligned(4))) static void on_interrupt(void)
{
    uint32_t source = *CLAIM;
    serve();
    *CLAIM = source;
}

static void count_up(volatile uint32_t *counter)
{
    for (;;)
        *counter += 1;
}

static void park(void)
{
    for (;;)
        wait_for_interrupt();
}

static void open_devices(void)
{
    UART[2] = FIFOS_ON;
    UART[1] = RECEIVED_DATA;
    CAN[5] = 0xFF; /* all identifiers */
    CAN[0] = 0;
    *PRIORITY_OF_UART = 1;
    *ENABLED_SOURCES = 1 << 1;
}

int main(uint32_t hart)
{
    static uint32_t counter;

    if (hart != 0)
        park();
    set_trap_handler(on_interrupt);
    open_devices();
    interrupts_on(MIE_EXTERNAL);
    count_up(&counter);
    return 0;
}
