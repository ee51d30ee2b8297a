/* Prints two variables as the start-up code has set them, and again after it has changed them. */
#include "../poll/print.h"

static uint32_t level = 40;  /* .data */
static uint32_t changes;     /* .bss */

static void report(void)
{
    print("level ");
    print_number(level);
    print(", changes ");
    print_number(changes);
    print("\n");
}

static void set_level(uint32_t value)
{
    level = value;
    changes++;
}

int main(void)
{
    report();
    set_level(42);
    report();
    return 0;
}
