/*
 * Readings of a meter with an HP-IB plug, through the mailbox to the loop.
 *
 * The bus leaves each reading byte by byte, and EOI marks its last byte. The loop fetches it, up to its end byte. The store has four cells,
 * so the second reading does not fit: a byte that is refused as busy is offered again when the loop has fetched one, and none is lost.
 */
#include <stdio.h>

#include "frames.h"
#include "raftershim_mailbox.h"

#define BUS_ADDRESS 3u
#define LISTEN_ON_BUS (32u + BUS_ADDRESS)
#define UNLISTEN_ON_BUS 63u

static const char *const readings[] = {"2.5", "-12.75"};

static uint8_t block[RAFTERSHIM_MAILBOX_BLOCK_LEN];
static uint16_t to_bus[1], to_loop[4];

#define LENT block, sizeof block, to_bus, sizeof to_bus / sizeof *to_bus, to_loop, sizeof to_loop / sizeof *to_loop

/* The frame that the mailbox answers; the frames of this program are never refused. */
static uint32_t on_loop(uint32_t frame) {
    return RAFTERSHIM_VALUE(raftershim_mailbox_loop_frame(LENT, frame));
}

/* Plays the bus: hands over what there is room for, EOI with the last byte. Gives what is left, whose first byte is offered again. */
static const char *from_bus(const char *text) {
    for (; *text; text++) {
        uint32_t end = text[1] == '\0';
        if (RAFTERSHIM_KIND(raftershim_mailbox_bus_byte(LENT, (uint8_t)*text, end)) == RAFTERSHIM_REFUSED) break;
    }
    return text;
}

/* Plays the loop's controller for one reading, up to its end byte: before that frame goes back, 5,66 asks the mailbox to stop after it. */
static void one_reading(const char *text) {
    const char *rest = from_bus(text);
    uint32_t frame = on_loop(SEND_DATA);
    int ended = 0;
    while (IS_DATA(frame)) {
        putchar((int)(frame & 255u));
        ended = IS_END_BYTE(frame) != 0;
        if (ended) on_loop(NOT_READY);
        rest = from_bus(rest);
        frame = on_loop(frame);
    }
    puts(ended ? ": whole" : ": not ended");
}

int main(void) {
    raftershim_mailbox_create(LENT, BUS_ADDRESS);
    on_loop(ASSIGN_1);
    on_loop(TALK_1);
    raftershim_mailbox_bus_command(LENT, LISTEN_ON_BUS);
    for (size_t i = 0; i < sizeof readings / sizeof *readings; i++) one_reading(readings[i]);
    raftershim_mailbox_bus_command(LENT, UNLISTEN_ON_BUS);
    return 0;
}
