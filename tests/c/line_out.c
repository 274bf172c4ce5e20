/* What goes out on the line from C: which byte is next, what a take leaves, and what a port that fails does not lose. */
#include "bridge.h"

/* a listener with address 1 on a receive store of 8, margin 3, and a transmit store of 3 */
static void listener(void) {
    IS(create(8, 3, 3), DONE);
    IS(frame(5, 129), OUT(3, 5, 130));
    IS(frame(4, 33), OUT(3, 4, 33));
}

/* five bytes from the line make a stop due */
static void stop_due(void) {
    for (uint8_t b = 1; b <= 5; b++) IS(line(b), TAKEN(8 - b));
}

/* a device clear empties both stores, and after a stop a go is due */
static void clear(void) { IS(frame(4, 20), OUT(3, 4, 20)); }

/* in the place of the byte that is next: there is none */
#define NOTHING -1

/* every byte is named: only the one that is next can be taken, which is done last */
static void every_byte(int next) {
    for (int b = 0; b < 256; b++) {
        if (b != next) REFUSED(12, take((uint8_t)b));
    }
    if (next == NOTHING) nothing_next();
    else goes_out((uint8_t)next);
}

/* what is next: nothing, what the loop sent unless the other end forbids it, and our own stop and go before all else */
static void names(void) {
    listener();
    every_byte(NOTHING);
    IS(frame(0, 65), OUT(2, 0, 65));
    IS(frame(0, 255), OUT(1, 0, 255));
    IS(line(19), TAKEN(8));
    every_byte(NOTHING);
    IS(line(17), TAKEN(8));
    every_byte(65);
    stop_due();
    IS(line(19), TAKEN(3));
    every_byte(19);
    every_byte(NOTHING);
    IS(writes(11, 8), DONE);
    every_byte(255);
    IS(writes(11, 0), DONE);
    every_byte(17);
    every_byte(NOTHING);
}

/* a take counts our own character as sent, or drops the oldest byte; of two that are equal our own goes first, and the other stays */
static void equal(void) {
    listener();
    stop_due();
    IS(frame(0, 19), OUT(2, 0, 19));
    IS(frame(0, 66), OUT(1, 0, 66));
    IS(block[RAFTERSHIM_AT_STOP_SENT_LAST], 0);
    goes_out(19);
    IS(block[RAFTERSHIM_AT_STOP_SENT_LAST], 1);
    IS(RAFTERSHIM_TRANSMIT_HELD(block), 2);
    goes_out(19);
    IS(RAFTERSHIM_TRANSMIT_HELD(block), 1);
    goes_out(66);
    IS(RAFTERSHIM_TRANSMIT_HELD(block), 0);
    IS(block[RAFTERSHIM_AT_STOP_SENT_LAST], 1);
    IS(writes(11, 0), DONE);
    IS(frame(0, 17), OUT(2, 0, 17));
    goes_out(17);
    IS(block[RAFTERSHIM_AT_STOP_SENT_LAST], 0);
    IS(show_transmit(), PART(2, 1));
    goes_out(17);
    nothing_next();
}

/* neither call writes a store, and a take settles requests: transmit empty is enabled */
static void requests(void) {
    listener();
    IS(frame(0, 65), OUT(2, 0, 65));
    IS(writes(0, 8), DONE);
    IS(writes(1, 1), DONE);
    keep();
    IS(ask(), BYTE(65));
    IS(frame(6, 0), OUT(2, 6, 0));
    IS(take(65), DONE);
    IS(stores_changed(), 0);
    IS(block[RAFTERSHIM_AT_REQUEST], 1);
    IS(frame(6, 0), OUT(3, 7, 0));
}

/* the port fails, and nothing is lost, though a stop becomes due in between */
static void failing_port(void) {
    listener();
    IS(frame(0, 82), OUT(2, 0, 82));
    IS(frame(0, 49), OUT(1, 0, 49));
    for (int tries = 0; tries < 3; tries++) IS(ask(), BYTE(82));
    stop_due();
    REFUSED(12, take(82));
    IS(show_transmit(), PART(0, 2));
    for (int tries = 0; tries < 3; tries++) IS(ask(), BYTE(19));
    goes_out(19);
    goes_out(82);
    goes_out(49);
    nothing_next();
}

/* what a caller must not do: another call between the ask and the take; the take is refused, and nothing is recorded */
static void late(void) {
    listener();
    stop_due();
    IS(ask(), BYTE(19));
    clear();
    REFUSED(12, take(19));
    nothing_next(); /* no go follows the stop */
    listener();
    IS(frame(0, 65), OUT(2, 0, 65));
    IS(ask(), BYTE(65));
    stop_due();
    REFUSED(12, take(65));
    goes_out(19);
    goes_out(65); /* a second time */
    IS(frame(0, 66), OUT(2, 0, 66));
    clear();
    REFUSED(12, take(66));
    goes_out(17);
    IS(reset(), DONE);
    REFUSED(12, take(17));
}

/* refusal 2 comes before 12: the block is no fitting state, whether the byte would be the next one or not */
static void misfit_first(void) {
    listener();
    IS(frame(0, 65), OUT(2, 0, 65));
    tx_len = 4;
    REFUSED(2, ask());
    REFUSED(2, take(65));
    REFUSED(2, take(66));
    tx_len = 3;
    goes_out(65);
    tx_len = 4;
    REFUSED(2, take(65));
    tx_len = 3;
    REFUSED(12, take(65));
}

int main(void) {
    names();
    equal();
    requests();
    failing_port();
    late();
    misfit_first();
    return ended("the request");
}
