#include <picolibc.h>
#include <picotls.h>
#include <stdio.h>
#include <stdlib.h>
#include "../harts/lock.h"

#define MSIP (*(volatile uint32_t *)0x2000000) /* of hart 1, by the wires of the board */
#define FINISHER (*(volatile uint32_t *)0x100000)

char second_stack[2048] __attribute__((aligned(16)));
static char second_tls[64] __attribute__((aligned(16))); /* its errno, for one */
static lock_t lock;
static volatile uint32_t finished;

static int put(char c, FILE *file)
{
    *(volatile uint8_t *)0x10000000 = c;
    return c;
}

static FILE uart = FDEV_SETUP_STREAM(put, NULL, NULL, _FDEV_SETUP_WRITE);
FILE *const stdout = &uart;

/* The library has no locks: one hart at a time is in printf, malloc and the like. */
static void count(int hart)
{
    for (int n = 1; n <= 2; n++) {
        acquire(&lock);
        char *text = malloc(32);
        snprintf(text, 32, "hart %d counts %d", hart, n);
        puts(text);
        free(text);
        release(&lock);
    }
    add(&finished, 1);
}

void second(void)
{
    _init_tls(second_tls);
    _set_tls(second_tls);
    count(1);
    for (;;)
        __asm__ volatile("csrw mie, zero; wfi");
}

int main(void)
{
    if (_tls_size() > sizeof second_tls)
        return 1;
    MSIP = 1;
    count(0);
    while (finished != 2) {
    }
    FINISHER = 0x5555;
    for (;;) {
    }
}
