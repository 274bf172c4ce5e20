/*
 * Stands in for the loop and the phone at its other end, which is the controller: it asks for readings one by one and prints them.
 * It sleeps until 65 bytes have come from the line, one more than the receive store has. From then on it asks after every line byte.
 */
#include <stdio.h>
#include <stdlib.h>

#include "frames.h"
#include "phone.h"
#include "ports.h"

#define ASLEEP 65u
#define READINGS 12

static uint32_t next = ASSIGN_1, end_byte, asked_at = ASLEEP - 1u;
static int readings;

int loop_take(uint32_t *frame) {
    if (next == SEND_DATA) {
        if (line_came <= asked_at) return 0;
        asked_at = line_came;
    }
    *frame = next;
    return 1;
}

/* What comes back: data goes round again, with 5,66 before an end byte; after the end of a transmission comes the next question. */
void loop_give(uint32_t frame) {
    if (IS_DATA(frame)) putchar((int)(frame & 255u));
    if (IS_END_BYTE(frame)) {
        end_byte = frame;
        next = NOT_READY;
    } else if (IS_DATA(frame)) {
        next = frame;
    } else if (frame == NOT_READY) {
        next = end_byte;
    } else if (frame == TALK_1) {
        next = SEND_DATA;
    } else if (frame == END_OF_TRANSMISSION) {
        next = SEND_DATA;
        if (end_byte && ++readings == READINGS) exit(0);
        if (end_byte) asked_at = line_came - 1u;
        end_byte = 0;
    } else {
        next = TALK_1;
    }
}
