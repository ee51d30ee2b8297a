/* Sends a question, and waits for an answer without an end. */
#include "hart.h"

static inline int has_byte(void)
{
    return UART[5] & 1;
}

static uint8_t receive(void)
{
    while (!has_byte()) {
    }
    return UART[0];
}

static int ask(uint8_t question)
{
    UART[0] = question;
    return receive() - '0';
}

int main(void)
{
    int sum = ask('a');
    return sum + ask('b');
}
