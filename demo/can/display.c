/* Accepts the identifiers 0x120 to 0x127 alone, waits for frames by polling, and prints what they say. */
#include "../poll/print.h"
#include "can.h"

int main(void)
{
    can_start(0x120 >> 3, 0, 0);
    for (;;) {
        while (!(CAN[SR] & SR_RBS)) {
        }
        print_number(CAN[RX + 2]);
        print(": ");
        print_number(CAN[RX + 3]);
        print("\n");
        CAN[CMR] = CMR_RRB;
    }
}
