/* The mailbox on the bus: the manual's table of HP-IB messages row by row, polls aside, each with its answer, the whole state and both stores. */
#include "mailbox.h"

/* Listen Address, Talk Address, Unlisten, Untalk, for every address */
static void roles(void) {
    for (uint32_t own = 0; own <= 30; own++) {
        GIVES(create(4, 4, own), DONE);
        for (uint32_t n = 0; n <= 31; n++) {
            if (n != own) DOES(command(32 + n), DONE);
            if (n != own) DOES(command(64 + n), DONE);
        }
        DUE(BUS_LISTENER, 1);
        DOES(command(32 + own), DONE);
        DOES(command(32 + (own + 1) % 31), DONE);
        DOES(command(95), DONE);
        DUE(BUS_LISTENER, 0);
        DOES(command(63), DONE);
        DUE(BUS_TALKER, 1);
        DOES(command(64 + own), DONE);
        DOES(command(63), DONE);
        DUE(BUS_TALKER, 0);
        DOES(command(64 + (own + 30) % 31), DONE);
        GIVES(command(64 + own), DONE);
        DUE(BUS_TALKER, 0);
        DOES(command(95), DONE);
        GIVES(command(64 + own), DONE);
        DUE(BUS_TALKER, 0), DUE(BUS_LISTENER, 1);
        DOES(command(32 + own), DONE);
        DUE(BUS_TALKER, 1), DUE(BUS_LISTENER, 0);
        DOES(command(64 + own), DONE);
    }
}

/* Data: a listener leaves it for the loop with its end mark; where we are not listener it is done and nobody keeps it */
static void listening(void) {
    begin(2, 3);
    DOES(byte(50), DONE);
    DOES(last(50), DONE);
    on_bus(TALK_ON_BUS);
    DOES(byte(50), DONE);
    on_bus(LISTEN_ON_BUS);
    DUE_HELD(TO_LOOP, 0, 1), DUE_NEWS(TO_LOOP, 1), cell_to_loop(0, 50);
    DOES(byte(50), DONE);
    DUE_HELD(TO_LOOP, 0, 2), cell_to_loop(1, 256 + 255);
    DOES(last(255), DONE);
    DUE_HELD(TO_LOOP, 0, 3), cell_to_loop(2, 256);
    DOES(raftershim_mailbox_bus_byte(LENT, 0, 0x100), DONE);
}

/* A full store refuses the byte, which is offered again when the loop has fetched one; meanwhile commands and fetches go on. */
static void full(void) {
    begin(2, 2);
    bus_leaves("ab");
    REFUSED(4, byte('c'));
    REFUSED(4, last('c'));
    on_loop(TALK_ON_LOOP);
    GIVES(frame(5, 96), FRAME(1, 'a'));
    DUE_HELD(TO_LOOP, 1, 2), cell_to_loop(0, 'c');
    DOES(byte('c'), DONE);
    REFUSED(4, byte('d'));
    DOES(lines(), LINES(0, 0));
    DOES(fetch(), NONE);
    DUE(BUS_LISTENER, 0);
    DOES(command(63), DONE);
    DOES(byte('d'), DONE);
    GIVES(frame(0, 'a'), FRAME(1, 'b'));
    DUE_HELD(TO_LOOP, 1, 0), DUE_NEWS(TO_LOOP, 0), DUE_SENDING(2, 'c');
    DOES(frame(0, 'b'), FRAME(1, 'c'));
}

/* Device Clear, and Selected Device Clear to a listener: what the bus left is gone, and nothing else */
static void clears(void) {
    for (uint32_t c = 4; c <= 20; c += 16) {
        begin(3, 3);
        loop_leaves("ab");
        bus_leaves("cde");
        on_loop(TALK_ON_LOOP);
        GIVES(frame(5, 96), FRAME(1, 'c'));
        on_loop(63);
        DUE_HELD(TO_LOOP, 0, 0), DUE_NEWS(TO_LOOP, 0);
        DOES(command(c), DONE);
        DUE_HELD(TO_LOOP, 0, 1), DUE_NEWS(TO_LOOP, 1), cell_to_loop(0, 'f');
        DOES(byte('f'), DONE);
        on_bus(63);
        if (c == 20) DUE_HELD(TO_LOOP, 0, 0), DUE_NEWS(TO_LOOP, 0);
        DOES(command(c), DONE);
    }
}

/* A talker gives what waits for the bus, each byte with its mark; none when nothing waits, and none when we are not talker */
static void fetching(void) {
    begin(3, 2);
    loop_leaves("a");
    GIVES(frame(2, 'b'), FRAME(2, 'b'));
    DOES(fetch(), NONE);
    on_bus(LISTEN_ON_BUS);
    DOES(fetch(), NONE);
    on_bus(TALK_ON_BUS);
    DUE_HELD(TO_BUS, 1, 1);
    DOES(fetch(), BYTE('a'));
    DUE_HELD(TO_BUS, 2, 0), DUE_NEWS(TO_BUS, 0);
    DOES(fetch(), BYTE(256 + 'b'));
    DOES(fetch(), NONE);
    DUE_HELD(TO_BUS, 2, 1), DUE_NEWS(TO_BUS, 1), cell_to_bus(2, 'c');
    DOES(frame(0, 'c'), FRAME(0, 'c'));
    DUE_HELD(TO_BUS, 0, 0), DUE_NEWS(TO_BUS, 0);
    DOES(fetch(), BYTE('c'));
}

/* Both ways at once: what one side left is what the other fetches, in order, each way by itself */
static void both_ways(void) {
    begin(3, 2);
    loop_leaves("ab");
    bus_leaves("AB");
    on_bus(TALK_ON_BUS), on_loop(TALK_ON_LOOP);
    GIVES(fetch(), BYTE('a'));
    GIVES(frame(5, 96), FRAME(1, 'A'));
    GIVES(fetch(), BYTE('b'));
    GIVES(frame(1, 'A'), FRAME(1, 'B'));
    GIVES(fetch(), NONE);
    GIVES(frame(1, 'B'), FRAME(5, 64));
}

/* Interface Clear: neither talker nor listener; what waits stays */
static void interface_clear(void) {
    begin(3, 2);
    loop_leaves("ab");
    bus_leaves("c");
    DUE(BUS_LISTENER, 0);
    DOES(clear(), DONE);
    DOES(clear(), DONE);
    on_bus(TALK_ON_BUS);
    DUE(BUS_TALKER, 0);
    DOES(clear(), DONE);
    DOES(fetch(), NONE);
}

/* The commands of no row: they do nothing. */
static void other_commands(void) {
    begin(3, 2);
    loop_leaves("ab");
    bus_leaves("c");
    for (uint32_t role = 0; role < 3; role++) {
        on_bus(role == 0 ? 63 : role == 1 ? LISTEN_ON_BUS : TALK_ON_BUS);
        for (uint32_t c = 0; c < 128; c++) {
            int listed = c == 4 || c == 5 || c == 20 || c == 21 || c == 24 || c == 25 || (c >= 32 && c < 96);
            if (!listed) DOES(command(c), DONE);
        }
    }
}

int main(void) {
    roles();
    listening();
    full();
    clears();
    fetching();
    both_ways();
    interface_clear();
    other_commands();
    return ended("the manual");
}
