/* Sends a reading every 250 microseconds by its timer, and at the first asks for the offset of later ones. */
#include "can.h"
#include "hart.h"

#define MTIMECMP ((volatile uint32_t *)0x02004000)
#define PERIOD 250

#define READING 0x123
#define OFFSET 0x2a8

static uint32_t next = PERIOD;
static uint8_t count;
static uint8_t offset;

static void send_reading(void)
{
    uint8_t bytes[2];
    count++;
    bytes[0] = count;
    bytes[1] = 20 + count + offset;
    can_send(READING, bytes, 2);
}

static __attribute__((interrupt("machine"), aligned(4))) void tick(void)
{
    next += PERIOD;
    MTIMECMP[0] = next;
    if (CAN[SR] & SR_RBS) {
        offset = CAN[RX + 2];
        CAN[CMR] = CMR_RRB;
    }
    send_reading();
    if (count == 1)
        can_ask(OFFSET, 1);
}

int main(void)
{
    can_start(OFFSET >> 3, 0, 0);
    MTIMECMP[0] = next;
    MTIMECMP[1] = 0;
    interrupts_on(tick, MIE_TIMER);
    for (;;)
        wait_for_interrupt();
}
