/* What the main loop of a dongle asks of its board. Nothing here waits. */
#ifndef PORTS_H
#define PORTS_H

#include <stdint.h>

/* Starts the serial port. */
void line_open(void);
/* Takes a byte that has come from the line; whether there was one. */
int line_take(uint8_t *byte);
/*
 * Whether the port itself has lost a byte since it was asked: the bridge cannot count what never came to it. The lost byte may lie before
 * or after any byte that the port still has: a port with a queue loses what comes after them, one without may lose what came before.
 */
int line_overran(void);
/* Gives the line a byte. Answers whether the port took the byte: if not, the port does not send it, and it is given again later. */
int line_give(uint8_t byte);

/* Takes a frame that has come from the loop; whether there was one. And sends one on. */
int loop_take(uint32_t *frame);
void loop_give(uint32_t frame);

/* Tells the user that a reading has gone out, and whether a byte is missing in it. */
void reading_ended(int missing);

#endif
