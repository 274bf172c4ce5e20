/* A break from C: which cell is marked, what the reading rule makes of it, and which bits of a cell count. */
#include "bridge.h"

#define MARK 256u
/* in a row: a break, and the end of the row */
#define BREAK 256
#define END -1

/* a talker with address 1 that finds ends of lines, on a receive store of 8 that holds what no call writes */
static void talker(void) {
    memset(rx, 0xA5, sizeof rx);
    IS(create(8, 3, 3), DONE);
    IS(writes(10, 8), DONE);
    IS(frame(5, 129), OUT(3, 5, 130));
    IS(frame(4, 65), OUT(3, 4, 65));
}

/* what comes on the line, up to END */
static void comes(const int *items) {
    for (; *items != END; items++) {
        if (*items == BREAK) IS(brk(), DONE);
        else IS(RAFTERSHIM_KIND(line((uint8_t)*items)), RAFTERSHIM_DONE);
    }
}

/* reads out frames, control * 256 + data, up to END, and then nothing more */
static void gives(const int *frames) {
    uint64_t answer = frame(5, 96);
    for (; *frames != END; frames++) {
        IS(answer, ROOM(3, 3ull << 16 | (uint32_t)*frames));
        answer = raftershim_loop_frame(LENT, (uint32_t)*frames);
    }
    IS(answer, OUT(3, 5, 64));
}

/* what comes, the frames, and how many cells are left */
struct row {
    int items[8], frames[5];
    uint32_t left;
};

static const struct row rows[] = {
    {{BREAK, 50, END}, {END}, 1},
    {{50, BREAK, BREAK, END}, {50, END}, 0},
    {{50, BREAK, 13, 10, END}, {50, END}, 0},
    {{13, BREAK, 10, END}, {13, END}, 1},
    {{50, 13, BREAK, END}, {50, 13, END}, 0},
    {{50, 13, BREAK, 10, 13, 10, END}, {50, 13, 512 + 10, END}, 0},
    {{50, 13, 10, BREAK, 46, END}, {512 + 50, END}, 1},
    {{13, 10, BREAK, 13, 10, END}, {END}, 0},
};

/* no end of line spans a break */
static void walls(void) {
    for (uint32_t i = 0; i < sizeof rows / sizeof *rows; i++) {
        talker();
        comes(rows[i].items);
        gives(rows[i].frames);
        IS(RAFTERSHIM_RECEIVE_HELD(block), rows[i].left);
    }
}

/* a break writes the newest held cell, byte and mark exactly, and nothing else in a store */
static void marks(void) {
    talker();
    keep();
    IS(brk(), DONE);
    IS(stores_changed(), 0);
    for (uint8_t b = 1; b <= 8; b++) {
        IS(line(b), TAKEN(8 - b));
        keep();
        IS(brk(), DONE);
        IS(rx[b - 1], MARK + b);
        rx[b - 1] = b;
        IS(stores_changed(), 0);
        IS(brk(), DONE);
        IS(brk(), DONE);
        IS(rx[b - 1], MARK + b);
        rx[b - 1] = 0xFE00u + b;
        IS(brk(), DONE);
        IS(rx[b - 1], MARK + b);
    }
    IS(line(9), TAKEN(0));
    IS(show_receive(), PART(0, 8));
    IS(block[RAFTERSHIM_AT_SEEN_BREAK], 1);
    /* the store comes round: a new byte has no mark until a break comes */
    IS(frame(5, 96), OUT(3, 0, 1));
    IS(line(13), TAKEN(0));
    IS(rx[0], 13);
    IS(brk(), DONE);
    IS(rx[0], MARK + 13);
    IS(rx[7], MARK + 8);
    IS(show_receive(), PART(1, 7));
    IS(show_transmit(), 0);
}

/* the bits above the mark do not count, in the bytes of a pair or before it */
static void bits(void) {
    static const int three[] = {50, 13, 10, END}, end[] = {512 + 50, END}, data[] = {50, END};
    for (uint32_t bit = 0x200u; bit <= 0x8000u; bit <<= 1) {
        for (int marked = 0; marked < 2; marked++) {
            talker();
            comes(three);
            for (int i = 0; i < 3; i++) rx[i] |= (uint16_t)bit;
            if (marked) rx[0] |= MARK;
            gives(marked ? data : end);
            IS(RAFTERSHIM_RECEIVE_HELD(block), 0);
            IS(rx[1], bit + 13u);
        }
    }
}

/* while R10 bit 3 is off marks are written and mean nothing */
static void rule_off(void) {
    static const int items[] = {50, 13, BREAK, 10, END}, frames[] = {50, 13, 10, END};
    talker();
    IS(writes(10, 0), DONE);
    comes(items);
    IS(rx[1], MARK + 13);
    gives(frames);
}

/* a block of version 2 is no state, and a break on it is refused and marks nothing */
static void version_before(void) {
    talker();
    IS(line(50), TAKEN(7));
    IS(block[RAFTERSHIM_AT_VERSION], 3);
    block[RAFTERSHIM_AT_VERSION] = 2;
    REFUSED(2, brk());
    REFUSED(2, line(51));
    REFUSED(2, frame(5, 96));
    IS(show_receive(), 0);
    block[RAFTERSHIM_AT_VERSION] = 3;
    IS(show_receive(), PART(0, 1));
}

int main(void) {
    walls();
    marks();
    bits();
    rule_off();
    version_before();
    return ended("the request");
}
