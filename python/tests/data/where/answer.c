/* Answers each byte in the handler of the UART's interrupt, which lacks aligned(4). */
#include "hart.h"

static uint32_t answered;

static uint8_t answer_to(uint8_t question)
{
    answered++;
    return question == 'a' ? '1' : '2';
}

__attribute__((interrupt("machine"))) static void answer(void)
{
    UART[0] = answer_to(UART[0]);
}

int main(void)
{
    set_trap_handler(answer);
    UART[1] = 1;
    interrupts_on(MIE_EXTERNAL);
    for (;;)
        wait_for_interrupt();
}
