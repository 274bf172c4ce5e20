/* Service requests of the mailbox and the polls that find them: the service bit and parallel polls on the loop, SRQ and both polls on the bus. */
#include "mailbox.h"

/* The service bit: set in data and identify frames while service is requested on the loop, kept otherwise; never in commands and ready frames. */
static void service_bit(void) {
    begin(4, 4);
    for (uint32_t control = 0; control < 8; control++) DOES(frame(control, 0), FRAME(control, 0));
    bus_leaves("a");
    for (uint32_t control = 0; control < 8; control++) {
        DOES(frame(control, 0), FRAME(control == 4 || control == 5 ? control : control | 1u, 0));
    }
    on_loop(LISTEN_ON_LOOP);
    DUE_HELD(TO_BUS, 0, 1), DUE_NEWS(TO_BUS, 1), cell_to_bus(0, 256 + 65);
    DOES(frame(2, 65), FRAME(3, 65));
    DUE_HELD(TO_LOOP, 0, 0), DUE_NEWS(TO_LOOP, 0);
    DOES(command(20), DONE);
    DOES(frame(6, 0), FRAME(6, 0));
}

/* Identify after Parallel Poll Enable: codes 0 to 7 set their bit while service is not requested, 8 to 15 while it is. */
static void loop_poll(void) {
    for (uint32_t code = 0; code < 16; code++) {
        uint32_t bit = 1u << code % 8;
        begin(4, 4);
        DOES(frame(4, 128 + code), FRAME(4, 128 + code));
        on_loop(LISTEN_ON_LOOP);
        DUE(LOOP_POLL, 1), DUE(LOOP_POLL_LINE, code % 8), DUE(LOOP_POLL_SENSE, code / 8);
        DOES(frame(4, 128 + code), FRAME(4, 128 + code));
        DOES(frame(6, 0), FRAME(6, code < 8 ? bit : 0));
        DOES(frame(7, 0), FRAME(7, code < 8 ? bit : 0));
        DOES(frame(6, 255), FRAME(6, 255));
        bus_leaves("a");
        DOES(frame(6, 0), FRAME(7, code < 8 ? 0 : bit));
        DOES(frame(7, 129), FRAME(7, code < 8 ? 129 : 129 | bit));
    }
}

/* Parallel Poll Disable to a listener and Parallel Poll Unconfigure end it, on the loop; nothing else does */
static void loop_poll_ends(void) {
    begin(4, 4);
    on_loop(LISTEN_ON_LOOP);
    on_loop(139);
    on_loop(20), on_loop(4), on_loop(154), on_loop(TALK_ON_LOOP), on_loop(144);
    GIVES(clear(), DONE);
    on_bus(21), on_bus(20), on_bus(5);
    DOES(frame(4, 5), FRAME(4, 5));
    IS(block[RAFTERSHIM_MAILBOX_AT_LOOP_POLL], 1);
    DUE(LOOP_POLL, 0), DUE(LOOP_POLL_LINE, 0), DUE(LOOP_POLL_SENSE, 0);
    DOES(frame(4, 21), FRAME(4, 21));
    DOES(frame(6, 0), FRAME(6, 0));
    on_loop(LISTEN_ON_LOOP);
    on_loop(143);
    DUE(LOOP_POLL, 0), DUE(LOOP_POLL_LINE, 0), DUE(LOOP_POLL_SENSE, 0);
    DOES(frame(4, 5), FRAME(4, 5));
}

/* SRQ: on from the first byte until the status byte is fetched, or nothing waits */
static void srq(void) {
    begin(4, 4);
    DOES(lines(), LINES(0, 0));
    bus_leaves("x");
    DOES(lines(), LINES(0, 0));
    on_bus(20);
    loop_leaves("ab");
    DOES(lines(), LINES(0, 1));
    on_bus(TALK_ON_BUS);
    GIVES(fetch(), BYTE('a'));
    DOES(lines(), LINES(0, 1));
    GIVES(fetch(), BYTE('b'));
    DOES(lines(), LINES(0, 0));
    loop_leaves("c");
    on_loop(20);
    DOES(lines(), LINES(0, 0));
}

/* Serial poll: the status byte once after each command, without a mark; it tells all, and data waits untouched */
static void serial_poll(void) {
    begin(4, 4);
    loop_leaves("ab");
    DUE(SERIAL_POLL, 1);
    DOES(command(24), DONE);
    DOES(fetch(), NONE);
    on_bus(TALK_ON_BUS);
    DOES(lines(), LINES(0, 1));
    DUE(STATUS_READ, 1), DUE_NEWS(TO_BUS, 0);
    DOES(fetch(), BYTE(65));
    DOES(lines(), LINES(0, 0));
    DOES(fetch(), NONE);
    DUE_HELD(TO_BUS, 0, 3), cell_to_bus(2, 'c');
    DOES(frame(0, 'c'), FRAME(0, 'c'));
    DUE(STATUS_READ, 0);
    DOES(command(0), DONE);
    DUE(STATUS_READ, 1);
    DOES(fetch(), BYTE(0));
    DUE(STATUS_READ, 0), DUE(SERIAL_POLL, 0);
    DOES(command(25), DONE);
    DUE_HELD(TO_BUS, 1, 2);
    DOES(fetch(), BYTE('a'));
    DUE_HELD(TO_BUS, 2, 1);
    DOES(fetch(), BYTE('b'));
}

/* Interface Clear ends serial poll mode, and a pending configure as any command does that is not secondary; the rest stays. */
static void interface_clear(void) {
    begin(4, 4);
    loop_leaves("a");
    on_bus(24), on_bus(TALK_ON_BUS);
    GIVES(fetch(), BYTE(65));
    DUE(SERIAL_POLL, 0), DUE(STATUS_READ, 0), DUE(BUS_TALKER, 0);
    DOES(clear(), DONE);
    on_bus(LISTEN_ON_BUS), on_bus(5), on_bus(99);
    DUE(BUS_LISTENER, 0);
    DOES(clear(), DONE);
    on_bus(LISTEN_ON_BUS), on_bus(5);
    DUE(BUS_LISTENER, 0), DUE(CONFIGURING, 0), DUE(BUS_POLL, 0), DUE(BUS_POLL_LINE, 0);
    DOES(clear(), DONE);
    bus_leaves("b");
    DUE(BUS_LISTENER, 0);
    DOES(clear(), DONE);
}

/* Parallel Poll Configure to a listener, then Enable: the line answers while service is requested, whatever the code's sense */
static void bus_poll(void) {
    for (uint32_t code = 0; code < 16; code++) {
        begin(4, 4);
        DOES(command(5), DONE);
        DOES(command(96 + code), DONE);
        on_bus(LISTEN_ON_BUS);
        DOES(command(96 + code), DONE);
        DUE(CONFIGURING, 1);
        DOES(command(5), DONE);
        DUE(CONFIGURING, 0), DUE(BUS_POLL, 1), DUE(BUS_POLL_LINE, code % 8);
        DOES(command(96 + code), DONE);
        DOES(command(112 + code), DONE);
        DOES(lines(), LINES(0, 0));
        loop_leaves("a");
        DOES(lines(), LINES(1u << code % 8, 1));
        on_loop(21);
        GIVES(clear(), DONE);
        DOES(lines(), LINES(1u << code % 8, 1));
    }
}

/* Parallel Poll Disable after Configure, Parallel Poll Unconfigure, and Configure without a secondary command end it. */
static void bus_poll_ends(void) {
    for (uint32_t c = 0; c < 128; c++) {
        begin(4, 4);
        on_bus(LISTEN_ON_BUS), on_bus(5), on_bus(102), on_bus(5);
        if (c == 63 || c == 20 || c == 4 || c == 24 || (c >= 96 && c < 112)) continue;
        DUE(CONFIGURING, c == 5), DUE(BUS_POLL, 0), DUE(BUS_POLL_LINE, 0);
        if (c == TALK_ON_BUS) DUE(BUS_TALKER, 1), DUE(BUS_LISTENER, 0);
        DOES(command(c), DONE);
    }
    begin(4, 4);
    on_bus(LISTEN_ON_BUS), on_bus(5), on_bus(103), on_bus(63);
    DUE(BUS_POLL, 0), DUE(BUS_POLL_LINE, 0);
    DOES(command(21), DONE);
}

int main(void) {
    service_bit();
    loop_poll();
    loop_poll_ends();
    srq();
    serial_poll();
    interface_clear();
    bus_poll();
    bus_poll_ends();
    return ended("the manual");
}
