/* Prints two lines, and passes the test where the second has the right number. */
#include "print.h"

static uint32_t factorial(uint32_t n)
{
    uint32_t product = 1;
    for (; n > 1; n--)
        product *= n;
    return product;
}

int main(void)
{
    print("Hello from C\n");
    uint32_t product = factorial(10);
    print("10! = ");
    print_number(product);
    print("\n");
    return product == 3628800 ? 0 : 1;
}
