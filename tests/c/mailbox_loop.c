/* The mailbox on the loop: the manual's table of HP-IL messages row by row, each with its answer, the whole state and both stores. */
#include "mailbox.h"

/* Auto Address, Auto Address Unconfigure: 15 is ours until an address is assigned, and again after 4,154; roles stay. */
static void addresses(void) {
    begin(4, 4);
    DUE(LOOP_LISTENER, 1);
    DOES(frame(4, 47), FRAME(4, 47));
    DOES(frame(5, 159), FRAME(5, 159));
    DUE(LOOP_ADDRESS, 30);
    DOES(frame(5, 158), FRAME(5, 159));
    DOES(frame(5, 129), FRAME(5, 129));
    DUE(LOOP_ADDRESS, 31);
    DOES(frame(4, 154), FRAME(4, 154));
    DUE(LOOP_ADDRESS, 15);
    DOES(frame(5, 143), FRAME(5, 144));
    DUE(LOOP_LISTENER, 0), DUE(LOOP_TALKER, 1);
    DOES(frame(4, 79), FRAME(4, 79));
    DOES(frame(5, 143), FRAME(5, 143));
    DUE(LOOP_ADDRESS, 31);
    DOES(frame(4, 154), FRAME(4, 154));
}

/* Listen Address, Talk Address, Unlisten, Untalk, for every address, which may be the bus's too */
static void roles(void) {
    for (uint32_t own = 0; own <= 30; own++) {
        begin(4, 4);
        DUE(LOOP_ADDRESS, own);
        DOES(frame(5, 128 + own), FRAME(5, 129 + own));
        for (uint32_t n = 0; n <= 31; n++) {
            if (n != own) DOES(frame(4, 32 + n), FRAME(4, 32 + n));
            if (n != own) DOES(frame(4, 64 + n), FRAME(4, 64 + n));
        }
        DUE(LOOP_LISTENER, 1);
        DOES(frame(4, 32 + own), FRAME(4, 32 + own));
        DOES(frame(4, 32 + (own + 1) % 31), FRAME(4, 32 + (own + 1) % 31));
        DOES(frame(4, 64 + 31), FRAME(4, 64 + 31));
        DUE(LOOP_LISTENER, 0);
        DOES(frame(4, 63), FRAME(4, 63));
        DUE(LOOP_TALKER, 1);
        DOES(frame(4, 64 + own), FRAME(4, 64 + own));
        DOES(frame(4, 63), FRAME(4, 63));
        DUE(LOOP_TALKER, 0);
        DOES(frame(4, 64 + (own + 30) % 31), FRAME(4, 64 + (own + 30) % 31));
        GIVES(frame(4, 64 + own), FRAME(4, 64 + own));
        DUE(LOOP_TALKER, 0);
        DOES(frame(4, 95), FRAME(4, 95));
        GIVES(frame(4, 64 + own), FRAME(4, 64 + own));
        DUE(LOOP_TALKER, 0), DUE(LOOP_LISTENER, 1);
        DOES(frame(4, 32 + own), FRAME(4, 32 + own));
        DUE(LOOP_TALKER, 1), DUE(LOOP_LISTENER, 0);
        DOES(frame(4, 64 + own), FRAME(4, 64 + own));
    }
}

/* Data Byte, End Byte: a listener leaves them for the bus; a full store refuses, and the frame is offered again */
static void listening(void) {
    begin(2, 2);
    DOES(frame(0, 65), FRAME(0, 65));
    DOES(frame(3, 65), FRAME(3, 65));
    on_loop(LISTEN_ON_LOOP);
    DUE_HELD(TO_BUS, 0, 1), DUE_NEWS(TO_BUS, 1), cell_to_bus(0, 65);
    DOES(frame(0, 65), FRAME(0, 65));
    DUE_HELD(TO_BUS, 0, 2), cell_to_bus(1, 256 + 66);
    DOES(frame(3, 66), FRAME(3, 66));
    for (uint32_t control = 0; control < 4; control++) REFUSED(4, frame(control, 67));
    DOES(frame(5, 0), FRAME(5, 0));
    DOES(frame(6, 0), FRAME(6, 0));
    on_bus(TALK_ON_BUS);
    DUE_HELD(TO_BUS, 1, 1);
    DOES(fetch(), BYTE(65));
    DUE_HELD(TO_BUS, 1, 2), cell_to_bus(0, 67);
    DOES(frame(1, 67), FRAME(1, 67));
    REFUSED(4, frame(0, 68));
    DUE_HELD(TO_BUS, 0, 1);
    DOES(fetch(), BYTE(256 + 66));
    DUE_HELD(TO_BUS, 1, 0), DUE_NEWS(TO_BUS, 0);
    DOES(fetch(), BYTE(67));
    DUE_HELD(TO_BUS, 1, 1), DUE_NEWS(TO_BUS, 1), cell_to_bus(1, 256);
    DOES(frame(2, 0), FRAME(2, 0));
}

/* Enable Listener Not Ready: the frame whose byte leaves one place free is held back for 5,66, and goes out when that comes round */
static void not_ready(void) {
    begin(3, 2);
    on_loop(LISTEN_ON_LOOP);
    DUE(NOT_READY, 1);
    DOES(frame(4, 15), FRAME(4, 15));
    DUE_HELD(TO_BUS, 0, 1), DUE_NEWS(TO_BUS, 1), cell_to_bus(0, 65);
    DOES(frame(0, 65), FRAME(0, 65));
    DUE_HELD(TO_BUS, 0, 2), cell_to_bus(1, 256 + 66), DUE(HOLDING, 1), DUE(HELD_FRAME, 0x342);
    DOES(frame(3, 66), FRAME(5, 66));
    DUE_HELD(TO_BUS, 0, 3), cell_to_bus(2, 67);
    DOES(frame(0, 67), FRAME(0, 67));
    REFUSED(4, frame(0, 68));
    DOES(frame(5, 0), FRAME(5, 0));
    DUE(HOLDING, 0), DUE(HELD_FRAME, 0);
    DOES(frame(5, 66), FRAME(3, 66));
    DOES(frame(5, 66), FRAME(5, 66));
    on_bus(TALK_ON_BUS);
    GIVES(fetch(), BYTE(65));
    GIVES(fetch(), BYTE(256 + 66));
    DUE_HELD(TO_BUS, 2, 2), cell_to_bus(0, 69), DUE(HOLDING, 1), DUE(HELD_FRAME, 69);
    DOES(frame(0, 69), FRAME(5, 66));
    bus_leaves("b");
    DUE(HOLDING, 0), DUE(HELD_FRAME, 0);
    DOES(frame(5, 66), FRAME(1, 69));
    DUE(NOT_READY, 0);
    DOES(frame(4, 33), FRAME(4, 33));
}

/* While a frame is held back, the next one that leaves one place free is passed: there is no second 5,66. */
static void held_once(void) {
    begin(2, 2);
    on_loop(LISTEN_ON_LOOP);
    on_loop(15);
    GIVES(frame(0, 65), FRAME(5, 66));
    on_bus(TALK_ON_BUS);
    GIVES(fetch(), BYTE(65));
    DUE_HELD(TO_BUS, 1, 1), DUE_NEWS(TO_BUS, 1), cell_to_bus(1, 66);
    DOES(frame(0, 66), FRAME(0, 66));
    DUE(HOLDING, 0), DUE(HELD_FRAME, 0);
    DOES(frame(5, 66), FRAME(0, 65));
}

/* A command forgets the held frame, never its byte. 15 enables anew where we are listener; every other command ends it. */
static void not_ready_ends(void) {
    for (uint32_t d = 0; d < 256; d++) {
        begin(2, 2);
        on_loop(LISTEN_ON_LOOP);
        on_loop(15);
        GIVES(frame(0, 65), FRAME(5, 66));
        if (d == 20 || d == 4 || d == TALK_ON_LOOP || d == 63 || (d >= 128 && d <= 144) || d == 154) continue;
        DUE(NOT_READY, d == 15), DUE(HOLDING, 0), DUE(HELD_FRAME, 0);
        DOES(frame(4, d), FRAME(4, d));
        DOES(frame(5, 66), FRAME(5, 66));
    }
    on_loop(63);
    DOES(frame(4, 15), FRAME(4, 15));
    begin(1, 2);
    on_loop(LISTEN_ON_LOOP);
    on_loop(15);
    DUE_HELD(TO_BUS, 0, 1), DUE_NEWS(TO_BUS, 1), cell_to_bus(0, 65);
    DOES(frame(0, 65), FRAME(0, 65));
}

/* Device Clear, and Selected Device Clear to a listener: what the loop left is gone, and nothing else */
static void clears(void) {
    for (uint32_t d = 4; d <= 20; d += 16) {
        begin(3, 3);
        loop_leaves("abc");
        bus_leaves("de");
        on_bus(TALK_ON_BUS);
        GIVES(fetch(), BYTE('a'));
        DUE_HELD(TO_BUS, 0, 0), DUE_NEWS(TO_BUS, 0);
        DOES(frame(4, d), FRAME(4, d));
        DOES(fetch(), NONE);
        DUE_HELD(TO_BUS, 0, 1), DUE_NEWS(TO_BUS, 1), cell_to_bus(0, 'f');
        DOES(frame(0, 'f'), FRAME(1, 'f'));
        on_loop(63);
        if (d == 20) DUE_HELD(TO_BUS, 0, 0), DUE_NEWS(TO_BUS, 0);
        DOES(frame(4, d), FRAME(4, d));
    }
}

/* Interface Clear: neither talker nor listener; stores, requests and poll settings stay */
static void interface_clear(void) {
    begin(3, 3);
    loop_leaves("a");
    on_loop(130);
    bus_leaves("b");
    DUE(LOOP_LISTENER, 0);
    DOES(frame(4, 144), FRAME(4, 144));
    on_loop(TALK_ON_LOOP);
    DUE(LOOP_TALKER, 0);
    DOES(frame(4, 144), FRAME(4, 144));
}

/* The commands of no row: they pass and do nothing. */
static int listed(uint32_t d) {
    return d == 4 || d == 5 || d == 15 || d == 20 || d == 21 || (d >= 32 && d < 96) || (d >= 128 && d <= 144) || d == 154;
}

static void other_commands(void) {
    begin(3, 3);
    bus_leaves("b");
    for (uint32_t role = 0; role < 3; role++) {
        on_loop(role == 0 ? 63 : role == 1 ? LISTEN_ON_LOOP : TALK_ON_LOOP);
        for (uint32_t d = 0; d < 256; d++) {
            if (!listed(d)) DOES(frame(4, d), FRAME(4, d));
        }
    }
}

/* Every command makes an active talker merely addressed, and the frame under way is forgotten; rows of their own do more. */
static void commands_while_active(void) {
    for (uint32_t d = 0; d < 256; d++) {
        if (d >= 32 && d < 96) continue;
        begin(3, 3);
        bus_leaves("bc");
        on_loop(TALK_ON_LOOP);
        GIVES(frame(5, d % 2 ? 97 : 98), d % 2 ? FRAME(1, 65) : FRAME(1, 72));
        GIVES(frame(5, 66), FRAME(5, 66));
        DUE_SENDING(d == 144 ? 0 : 1, 0), DUE(FINISHING, 0);
        DOES(frame(4, d), FRAME(4, d));
        DOES(frame(0, 72), FRAME(d % 2 ? 0 : 1, 72));
    }
}

int main(void) {
    addresses();
    roles();
    listening();
    not_ready();
    held_once();
    not_ready_ends();
    clears();
    interface_clear();
    other_commands();
    commands_while_active();
    return ended("the manual");
}
