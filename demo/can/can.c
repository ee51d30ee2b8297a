#include "can.h"

void can_start(uint8_t code, uint8_t mask, uint8_t control)
{
    CAN[CR] = CR_RR;
    CAN[ACR] = code;
    CAN[AMR] = mask;
    CAN[CR] = control;
}

void can_send(uint16_t id, const uint8_t *bytes, uint8_t length)
{
    CAN[TX] = id >> 3;
    CAN[TX + 1] = id << 5 | length;
    for (uint8_t i = 0; i < length; i++)
        CAN[TX + 2 + i] = bytes[i];
    CAN[CMR] = CMR_TR;
}

void can_ask(uint16_t id, uint8_t length)
{
    CAN[TX] = id >> 3;
    CAN[TX + 1] = id << 5 | RTR | length;
    CAN[CMR] = CMR_TR;
}
