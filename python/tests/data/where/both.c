/* Hart 0 counts in a function that main has called, and hart 1 waits in main. */
#include "hart.h"

__attribute__((noinline)) static void count_up(uint32_t from)
{
    volatile uint32_t count = from;

    for (;;)
        count++;
}

int main(uint32_t hart)
{
    if (hart == 0)
        count_up(hart);
    for (;;)
        wait_for_interrupt();
}
