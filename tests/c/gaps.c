/*
 * Holds examples/c/gaps.h to a history that is kept beside the bridge: every line byte, whether it found room, and which reading took it.
 * Line bytes, breaks, readings that end or do not, status polls, resets and device clears come in any order.
 */
#include <stdio.h>

#include "frames.h"
#include "gaps.h"

#define CR 13u
#define LF 10u
#define STEPS 400000

static uint8_t block[RAFTERSHIM_BLOCK_LEN], tx[3];
static uint16_t rx[RECEIVE_LEN];
/* What is noted of gaps, and room behind it: notes that are wrong may write past their end, and are to be found then. */
static struct { struct gaps of; uint32_t behind[4]; } noted;
#define gaps noted.of

#define LENT block, sizeof block, rx, RECEIVE_LEN, tx, sizeof tx

/* The history: the bytes that found room, whether one was lost or a break came before each, whether a break parts it from the next one that
 * is held with it, and how many were taken. */
static uint8_t stored[STEPS + 3];
static uint8_t gap_before[STEPS + 3];
static uint8_t broken[STEPS + 3];
static uint32_t came, taken, reading_from;

static uint32_t on_loop(uint32_t frame) {
    return RAFTERSHIM_VALUE(raftershim_loop_frame(LENT, frame));
}

static void from_line(uint8_t byte) {
    raftershim_line_byte(LENT, byte);
    gaps_note(&gaps, block);
    if (came - taken < RECEIVE_LEN) stored[came++] = byte;
    else gap_before[came] = 1;
}

static void line_breaks(void) {
    raftershim_break(LENT);
    gaps_here(&gaps, block);
    if (came != taken) broken[came - 1u] = 1;
    gap_before[came] = 1;
}

static int pair_at(uint32_t i) {
    return i + 1u < came && stored[i] == CR && !broken[i] && stored[i + 1u] == LF;
}

/* Takes from the history what one reading takes, by the rule; whether it ended. */
static int history_ends(void) {
    for (;;) {
        while (pair_at(taken)) taken += 2u;
        if (taken == came) return 0;
        if (!broken[taken]) {
            if (pair_at(taken + 1u)) return taken += 3u, 1;
            if (taken + 1u == came || (taken + 2u == came && stored[taken + 1u] == CR && !broken[taken + 1u])) return 0;
        }
        taken++;
    }
}

/* Whether a byte is missing in the reading that has just ended, by the history. */
static int history_misses(void) {
    int missing = 0;
    for (; reading_from < taken; reading_from++) missing |= gap_before[reading_from];
    return missing;
}

/* Plays the controller for a reading; whether it ended. */
static int reading_ends(void) {
    int ended = 0;
    for (uint32_t frame = on_loop(SEND_DATA); IS_DATA(frame); frame = on_loop(frame)) {
        ended = IS_END_BYTE(frame) != 0;
        if (ended) on_loop(NOT_READY);
    }
    return ended;
}

/* Makes the bridge talker with end bytes and without the protocol, after create or reset. */
static void set_up(void) {
    raftershim_write_register(LENT, LINE_ENDS);
    raftershim_write_register(LENT, NO_PROTOCOL);
    on_loop(ASSIGN_1);
    on_loop(TALK_1);
}

/* Throws away what is held: by reset, by 4,20, or by 4,4 to a listener. In the history that is a byte lost before the next one. */
static void throw_away(uint32_t way) {
    if (way == 0u) {
        raftershim_reset(LENT);
        set_up();
    } else if (way == 1u) {
        on_loop(DEVICE_CLEAR);
    } else {
        on_loop(LISTEN_1);
        on_loop(SELECTED_DEVICE_CLEAR);
        on_loop(TALK_1);
    }
    gaps_thrown_away(&gaps);
    taken = came;
    gap_before[came] = 1;
}

/* Everything but a reading, by the draw: a status poll, a break, a line byte, bytes thrown away. Whether it was one of these. */
static int no_reading(uint32_t draw) {
    if (draw < 8u) on_loop(on_loop(SEND_STATUS));
    if (draw >= 8u && draw < 16u) line_breaks();
    if (draw < 200u) from_line((uint8_t)("12.5\r\n\r\n"[draw % 8u]));
    if (draw >= 253u) throw_away(draw - 253u);
    return draw < 200u || draw >= 253u;
}

int main(void) {
    uint32_t random = 1u, readings = 0u, missing = 0u;
    raftershim_create(LENT, 1);
    set_up();
    for (int step = 0; step < STEPS; step++) {
        random = random * 1664525u + 1013904223u;
        int none = no_reading(random >> 24);
        if (gaps.count > RECEIVE_LEN + 1u) return printf("%u gaps ahead, which are too many by the history\n", (unsigned)gaps.count), 1;
        if (none) continue;
        int ended = reading_ends(), told = ended && gaps_in_reading(&gaps, block), right = history_ends();
        if (ended != right || (ended && told != history_misses())) {
            printf("reading %u: ended %d, missing %d; by the history it ended %d\n", (unsigned)readings, ended, told, right);
            return 1;
        }
        readings += (uint32_t)ended;
        missing += (uint32_t)told;
    }
    printf("%u readings, %u with a byte missing, as in the history\n", (unsigned)readings, (unsigned)missing);
    return readings == 0u || missing == 0u || missing == readings;
}
