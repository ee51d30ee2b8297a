#include "../can/hart.h"
#include "../poll/print.h"

#define UART ((volatile uint8_t *)0x10000000)
#define IER 1
#define FCR 2
#define LSR 5
#define PLIC_PRIORITY ((volatile uint32_t *)0x0C000000)
#define PLIC_ENABLE ((volatile uint32_t *)0x0C002000)
#define PLIC_CLAIM ((volatile uint32_t *)0x0C200004)
#define UART_SOURCE 10

/* The handler alone moves `filled`, and main alone `taken`. They are counts; the size is a power of 2. */
static volatile uint8_t ring[64];
static volatile uint32_t filled, taken;

static __attribute__((interrupt("machine"), aligned(4))) void on_byte(void)
{
    uint32_t source = *PLIC_CLAIM;
    while (UART[LSR] & 1) {
        uint8_t byte = UART[0];
        if (filled - taken < sizeof ring)
            ring[filled++ % sizeof ring] = byte;
    }
    *PLIC_CLAIM = source;
}

static char next_byte(void)
{
    while (taken == filled) {
    }
    return ring[taken++ % sizeof ring];
}

/* Some 500 microseconds, in which five bytes come. */
static void work(void)
{
    for (volatile int n = 0; n < 1000; n++) {
    }
}

int main(void)
{
    PLIC_PRIORITY[UART_SOURCE] = 1;
    PLIC_ENABLE[0] = 1u << UART_SOURCE;
    UART[FCR] = 1;
    UART[IER] = 1;
    interrupts_on(on_byte, MIE_EXTERNAL);
    for (char byte = 0; byte != '\n';) {
        byte = next_byte();
        work();
        put(byte);
    }
    return 0;
}
