/* The ports of a micro:bit: its serial port is the line. Its light would tell of a missing byte; here the console does. */
#include <stdio.h>

#include "phone.h"
#include "ports.h"

/* The serial port of the nRF51, by the names of its manual. */
#define UART(offset) (*(volatile uint32_t *)(0x40002000u + (offset)))
#define STARTRX UART(0x000u)
#define STARTTX UART(0x008u)
#define RXDRDY UART(0x108u)
#define TXDRDY UART(0x11Cu)
#define ERRORSRC UART(0x480u)
#define ENABLE UART(0x500u)
#define RXD UART(0x518u)
#define TXD UART(0x51Cu)

uint32_t line_came;
static int sending;

void line_open(void) {
    ENABLE = 4;
    STARTRX = 1;
    STARTTX = 1;
}

int line_take(uint8_t *byte) {
    if (!RXDRDY) return 0;
    RXDRDY = 0;
    *byte = (uint8_t)RXD;
    line_came++;
    return 1;
}

int line_overran(void) {
    uint32_t overran = ERRORSRC & 1u;
    if (overran) ERRORSRC = overran;
    return overran != 0u;
}

int line_give(uint8_t byte) {
    if (sending && !TXDRDY) return 0;
    TXDRDY = 0;
    sending = 1;
    TXD = byte;
    return 1;
}

void reading_ended(int missing) {
    puts(missing ? ": a byte is missing" : ": whole");
}
