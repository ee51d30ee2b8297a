/* Answers each remote frame of one identifier, by the interrupt of its CAN controller. */
#include "can.h"
#include "hart.h"

#define PLIC_PRIORITY ((volatile uint32_t *)0x0C000000)
#define PLIC_ENABLE ((volatile uint32_t *)0x0C002000)
#define PLIC_CLAIM ((volatile uint32_t *)0x0C200004)
#define CAN_SOURCE 1

#define OFFSET 0x2a8

static const uint8_t answer[1] = {5};

static __attribute__((interrupt("machine"), aligned(4))) void on_frame(void)
{
    uint32_t source = *PLIC_CLAIM;
    (void)CAN[IR];
    uint8_t kind = CAN[RX + 1] & RTR;
    CAN[CMR] = CMR_RRB;
    if (kind == RTR)
        can_send(OFFSET, answer, 1);
    *PLIC_CLAIM = source;
}

int main(void)
{
    PLIC_PRIORITY[CAN_SOURCE] = 1;
    PLIC_ENABLE[0] = 1u << CAN_SOURCE;
    can_start(OFFSET >> 3, 0, CR_RIE);
    interrupts_on(on_frame, MIE_EXTERNAL);
    for (;;)
        wait_for_interrupt();
}
