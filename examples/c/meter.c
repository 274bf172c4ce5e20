/*
 * One reading at a time from a meter, and whether a byte is missing in it.
 *
 * The meter sends ten readings into a store of eight cells and is not held off. Once the loop is late: the point of 2.5 comes when the
 * store is full. The program prints 25 and says that a byte is missing there, and in no other reading. Its last line is the room that
 * was left before each reading, which the answers to the bytes tell.
 */
#include <stdio.h>

#include "frames.h"
#include "gaps.h"

/* What the meter sends before each time that the loop asks. */
static const char *const line[] = {"7\r\n",    "0.5\r\n",  "12.75\r\n2.", "5\r\n",   "2.5\r\n",
                                   "-1.5\r\n", "3.25\r\n", "4\r\n",       "88.8\r\n", "9.75\r\n"};

static uint8_t block[RAFTERSHIM_BLOCK_LEN], tx[3];
static uint16_t rx[RECEIVE_LEN];
static struct gaps gaps;

#define LENT block, sizeof block, rx, RECEIVE_LEN, tx, sizeof tx

/* A byte from the line; gives the room that is left after it. */
static unsigned from_line(uint8_t byte) {
    uint64_t answer = raftershim_line_byte(LENT, byte);
    gaps_note(&gaps, block);
    return RAFTERSHIM_ROOM(answer);
}

/* The frame that the bridge answers; the frames of this program are never refused. */
static uint32_t on_loop(uint32_t frame) {
    return RAFTERSHIM_VALUE(raftershim_loop_frame(LENT, frame));
}

/* Plays the controller for one reading, up to its end byte: before that frame goes back, 5,66 asks the bridge to stop after it. */
static void one_reading(void) {
    uint32_t frame = on_loop(SEND_DATA);
    int ended = 0;
    while (IS_DATA(frame)) {
        putchar((int)(frame & 255u));
        ended = IS_END_BYTE(frame);
        if (ended) on_loop(NOT_READY);
        frame = on_loop(frame);
    }
    puts(!ended ? ": not ended" : gaps_in_reading(&gaps, block) ? ": a byte is missing" : ": whole");
}

int main(void) {
    unsigned room[sizeof line / sizeof *line] = {0};
    raftershim_create(LENT, 1);
    raftershim_write_register(LENT, LINE_ENDS);
    raftershim_write_register(LENT, NO_PROTOCOL);
    on_loop(ASSIGN_1);
    on_loop(TALK_1);
    for (size_t i = 0; i < sizeof line / sizeof *line; i++) {
        for (const char *byte = line[i]; *byte; byte++) room[i] = from_line((uint8_t)*byte);
        one_reading();
    }
    fputs("room before each reading:", stdout);
    for (size_t i = 0; i < sizeof room / sizeof *room; i++) printf(" %u", room[i]);
    putchar('\n');
    return 0;
}
