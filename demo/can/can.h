/* The SJA1000 in BasicCAN mode. */
#include <stdint.h>

#define CAN ((volatile uint8_t *)0x10001000)

#define CR 0   /* control */
#define CMR 1  /* command */
#define SR 2   /* status */
#define IR 3   /* interrupt; a read clears it */
#define ACR 4  /* acceptance code: bits 10 to 3 of the identifier */
#define AMR 5  /* acceptance mask: a 1 means that the bit is not looked at */
#define TX 10  /* transmit buffer: identifier, identifier and length, data */
#define RX 20  /* receive buffer */

#define CR_RR 0x01   /* reset mode */
#define CR_RIE 0x02  /* receive interrupts */
#define CMR_TR 0x01  /* send the transmit buffer */
#define CMR_RRB 0x04 /* release the receive buffer */
#define SR_RBS 0x01  /* a frame is held */
#define RTR 0x10     /* the frame is a remote one: it asks for data */

/* Accepts identifiers by code and mask, and goes to operating mode. */
void can_start(uint8_t code, uint8_t mask, uint8_t control);

/* Sends a data frame. */
void can_send(uint16_t id, const uint8_t *bytes, uint8_t length);

/* Sends a remote frame, which asks for data of that length. */
void can_ask(uint16_t id, uint8_t length);
