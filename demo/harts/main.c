/* Two harts count together by atomic additions, and hand a token to one another under a lock. */
#include "../poll/print.h"
#include "lock.h"

#define HARTS 2
#define ADDITIONS 100
#define ROUNDS 3

static volatile uint32_t counter;
static volatile uint32_t finished;

static lock_t lock;
static volatile uint32_t holder; /* the hart that has the token, under the lock */

static void count(void)
{
    for (int i = 0; i < ADDITIONS; i++)
        add(&counter, 1);
}

/* Prints a line and hands the token on, where this hart has it. */
static int use_token(uint32_t hart)
{
    acquire(&lock);
    int mine = holder == hart;
    if (mine) {
        print("hart ");
        print_number(hart);
        print(" has the token\n");
        holder = (hart + 1) % HARTS;
    }
    release(&lock);
    return mine;
}

/* Hart 0 gives 0 where the count is right; the others do not come back. */
int main(uint32_t hart)
{
    count();
    for (int rounds = 0; rounds < ROUNDS;)
        rounds += use_token(hart);
    add(&finished, 1);
    while (hart != 0)
        __asm__ volatile("wfi");
    while (finished != HARTS) {
    }
    print("counter ");
    print_number(counter);
    print("\n");
    return counter == HARTS * ADDITIONS ? 0 : 1;
}
