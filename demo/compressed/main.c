/* Prints the letters of the processor's extensions, and counts primes by a sieve. */
#include "../poll/print.h"

#define LIMIT 100

static uint8_t crossed[LIMIT];

static uint32_t read_misa(void)
{
    uint32_t misa;
    __asm__ volatile("csrr %0, misa" : "=r"(misa));
    return misa;
}

static void print_letters(uint32_t misa)
{
    for (int i = 0; i < 26; i++)
        if (misa >> i & 1)
            put('A' + i);
}

static uint32_t count_primes(void)
{
    uint32_t count = 0;
    for (uint32_t n = 2; n < LIMIT; n++) {
        if (crossed[n])
            continue;
        count++;
        for (uint32_t multiple = n * n; multiple < LIMIT; multiple += n)
            crossed[multiple] = 1;
    }
    return count;
}

int main(void)
{
    print_letters(read_misa());
    print("\nprimes below 100: ");
    uint32_t count = count_primes();
    print_number(count);
    print("\n");
    return count == 25 ? 0 : 1;
}
