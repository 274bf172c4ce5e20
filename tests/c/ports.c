/*
 * Stands in for a board under the main loop of the dongle, on a machine of ours: a serial port with a queue of six bytes, which loses
 * what comes when it is full, and which fails to send more often than not; and the phone of the example, between whose questions come
 * commands that throw away what is held, and bytes for the line.
 */
#include <stdio.h>
#include <stdlib.h>

/* The phone's side of the loop, under other names: the commands come between. */
#define loop_take phone_take
#define loop_give phone_give
#include "phone.c"
#undef loop_take
#undef loop_give

#define QUEUE 6u
#define COMMANDS 5u
/* Of so many tries to send a byte one succeeds. */
#define TRIES 3u
/* The most bytes for the line that are kept. */
#define SENT 8u

/* What comes at once when the port is empty: first frames on the loop, then bytes on the line. */
struct moment {
    uint32_t commands[COMMANDS + 1u];
    const char *line;
};

static const struct moment moments[] = {
    {{0}, "0.5\r\n"},
    /* The point of 2.5 is the seventh byte. */
    {{0}, "1.5\r\n2."},
    {{0}, "5\r\n"},
    {{0}, "3.5\r\n"},
    /* The 2 of 2.5 is the seventh byte, and the six before it are a reading. */
    {{0}, "6.25\r\n2"},
    {{0}, ".5\r\n"},
    /* The phone sets the range of the meter. */
    {{LISTEN_1, 'R', '1', '3', TALK_1}, "7.5\r\n"},
    /* The 2 is thrown away. */
    {{0}, "12"},
    {{DEVICE_CLEAR}, ".5\r\n"},
    {{0}, "4.5\r\n"},
    {{0}, "12"},
    {{LISTEN_1, SELECTED_DEVICE_CLEAR, TALK_1}, ".5\r\n"},
    {{0}, "5.5\r\n"},
    /* We are no listener, so nothing is thrown away. */
    {{0}, "12"},
    {{SELECTED_DEVICE_CLEAR}, ".5\r\n"},
};

uint32_t line_came;
static const struct moment *moment = moments;
static const uint32_t *commands = moments[0].commands;
static char queue[QUEUE], sent[SENT + 1u];
static uint32_t queued, sendings, tries;
static int overran, commanding;

/* The next moment. The program ends after the last. */
static void comes(void) {
    if (moment == moments + sizeof moments / sizeof *moments) exit(0);
    commands = moment->commands;
    for (const char *byte = moment->line; *byte; byte++) {
        if (queued < QUEUE) queue[queued++] = *byte;
        else overran = 1;
    }
    moment++;
}

/* At the end: what the line got. */
static void line_got(void) {
    printf("the line got %s in %u tries\n", sent, (unsigned)tries);
}

/* The phone asks from the first byte on. */
void line_open(void) {
    asked_at = 0u;
    atexit(line_got);
}

int line_take(uint8_t *byte) {
    if (queued == 0u) return comes(), 0;
    *byte = (uint8_t)queue[0];
    queued--;
    for (uint32_t i = 0u; i < queued; i++) queue[i] = queue[i + 1u];
    line_came++;
    return 1;
}

int line_overran(void) {
    int told = overran;
    overran = 0;
    return told;
}

/* What the port does not send it does not take. */
int line_give(uint8_t byte) {
    if (++tries % TRIES != 0u) return 0;
    if (sendings < SENT) sent[sendings++] = (char)byte;
    return 1;
}

int loop_take(uint32_t *frame) {
    if (phone_take(frame)) return 1;
    commanding = *commands != 0u;
    if (commanding) *frame = *commands++;
    return commanding;
}

void loop_give(uint32_t frame) {
    if (!commanding) phone_give(frame);
    commanding = 0;
}

void reading_ended(int missing) {
    puts(missing ? ": a byte is missing" : ": whole");
}
