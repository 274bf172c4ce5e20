/* The mailbox as talker on the loop: what waits, the status byte and the two IDs, come back or damaged, cut off or finished. */
#include "mailbox.h"

/* Send Data: a reading with EOI gets to the loop with its end byte, which does not end the sending; 5,64 comes when nothing waits */
static void reading(void) {
    begin(4, 5);
    bus_leaves("2.");
    DUE_HELD(TO_LOOP, 0, 3), cell_to_loop(2, 256 + '5');
    DOES(last('5'), DONE);
    GIVES(byte('7'), DONE);
    DOES(frame(5, 96), FRAME(5, 96));
    on_loop(TALK_ON_LOOP);
    DUE_HELD(TO_LOOP, 1, 3), DUE_SENDING(2, '2');
    DOES(frame(5, 96), FRAME(1, '2'));
    for (uint32_t d = 96; d < 100; d++) DOES(frame(5, d), FRAME(5, d));
    DUE_HELD(TO_LOOP, 2, 2), DUE_SENDING(2, '.');
    DOES(frame(1, '2'), FRAME(1, '.'));
    DUE_HELD(TO_LOOP, 3, 1), DUE_SENDING(2, 512 + '5');
    DOES(frame(0, '.'), FRAME(3, '5'));
    DUE_HELD(TO_LOOP, 4, 0), DUE_SENDING(2, '7'), DUE_NEWS(TO_LOOP, 0);
    DOES(frame(2, '5'), FRAME(1, '7'));
    DUE_SENDING(1, 0);
    DOES(frame(1, '7'), FRAME(5, 64));
    DOES(frame(5, 96), FRAME(5, 64));
    DUE_HELD(TO_LOOP, 4, 1), DUE_NEWS(TO_LOOP, 1), cell_to_loop(4, '8');
    DOES(byte('8'), DONE);
    DUE_HELD(TO_LOOP, 0, 0), DUE_NEWS(TO_LOOP, 0), DUE_SENDING(2, '8');
    DOES(frame(5, 96), FRAME(1, '8'));
}

/* A frame that comes back changed, other than in its service bit, gives 5,65. Its byte was fetched and is not sent again. */
static void damaged(void) {
    static const uint32_t back[] = {51, 512 + 50, 0, 0x3FF};
    for (uint32_t i = 0; i < 4; i++) {
        begin(4, 5);
        bus_leaves("23");
        on_loop(TALK_ON_LOOP);
        GIVES(frame(5, 96), FRAME(1, 50));
        DUE_SENDING(1, 0);
        DOES(raftershim_mailbox_loop_frame(LENT, back[i]), FRAME(5, 65));
        DUE_HELD(TO_LOOP, 2, 0), DUE_NEWS(TO_LOOP, 0), DUE_SENDING(2, 51);
        DOES(frame(5, 96), FRAME(1, 51));
        GIVES(frame(0, 51), FRAME(5, 64));
    }
}

/* Not Ready For Data: sending ends when the frame under way has come back; the rest waits */
static void finishing(void) {
    begin(4, 5);
    bus_leaves("23");
    on_loop(TALK_ON_LOOP);
    DOES(frame(5, 66), FRAME(5, 66));
    GIVES(frame(5, 96), FRAME(1, '2'));
    DUE(FINISHING, 1);
    DOES(frame(5, 66), FRAME(5, 66));
    DUE(FINISHING, 0), DUE_SENDING(1, 0);
    DOES(frame(0, '2'), FRAME(5, 64));
    GIVES(frame(5, 96), FRAME(1, '3'));
    GIVES(frame(5, 66), FRAME(5, 66));
    DUE(FINISHING, 0), DUE_SENDING(1, 0);
    DOES(frame(0, '2'), FRAME(5, 65));
}

/* The bus clears the way while our frame is under way: the frame stays ours, and what was left since is next. */
static void cleared_under_way(void) {
    begin(4, 5);
    bus_leaves("234");
    on_loop(TALK_ON_LOOP);
    GIVES(frame(5, 96), FRAME(1, '2'));
    DUE_HELD(TO_LOOP, 0, 0), DUE_NEWS(TO_LOOP, 0);
    DOES(command(20), DONE);
    DUE_HELD(TO_LOOP, 0, 1), DUE_NEWS(TO_LOOP, 1), cell_to_loop(0, '9');
    DOES(byte('9'), DONE);
    DUE_HELD(TO_LOOP, 1, 0), DUE_NEWS(TO_LOOP, 0), DUE_SENDING(2, '9');
    DOES(frame(0, '2'), FRAME(1, '9'));
    DUE_HELD(TO_LOOP, 0, 0);
    DOES(command(20), DONE);
    DUE_SENDING(1, 0);
    DOES(frame(0, '9'), FRAME(5, 64));
}

/* Send Status: 65 once something came into the empty way. Sending ends the request, the return of the byte ends bit 0. */
static void status(void) {
    begin(4, 5);
    DOES(frame(5, 97), FRAME(5, 97));
    on_loop(TALK_ON_LOOP);
    DUE_SENDING(3, 0);
    DOES(frame(5, 97), FRAME(0, 0));
    DUE_SENDING(1, 0);
    DOES(frame(0, 0), FRAME(5, 64));
    bus_leaves("2");
    DUE_SENDING(3, 65), DUE(TO_LOOP_REQUEST, 0), DUE(TO_LOOP_AGAIN, 0);
    DOES(frame(5, 97), FRAME(1, 65));
    DOES(frame(5, 66), FRAME(5, 66));
    for (uint32_t d = 96; d < 100; d++) DOES(frame(5, d), FRAME(5, d));
    DUE_HELD(TO_LOOP, 0, 2), cell_to_loop(1, '3');
    DOES(byte('3'), DONE);
    DUE_SENDING(1, 0), DUE(TO_LOOP_AVAILABLE, 0);
    DOES(frame(1, 65), FRAME(5, 64));
    DUE_SENDING(3, 0);
    DOES(frame(5, 97), FRAME(0, 0));
    DUE_SENDING(1, 0);
    DOES(frame(0, 0), FRAME(5, 64));
}

/* A status byte that is damaged, or cut off by a command, keeps the news. */
static void status_lost(void) {
    for (uint32_t cut = 0; cut < 2; cut++) {
        begin(4, 5);
        bus_leaves("2");
        on_loop(TALK_ON_LOOP);
        GIVES(frame(5, 97), FRAME(1, 65));
        DUE_SENDING(1, 0);
        if (cut) DOES(frame(4, 0), FRAME(4, 0));
        else DOES(frame(0, 64), FRAME(5, 65));
        DUE_SENDING(3, 1);
        DOES(frame(5, 97), FRAME(0, 1));
        DUE_SENDING(1, 0), DUE(TO_LOOP_AVAILABLE, 0);
        DOES(frame(0, 1), FRAME(5, 64));
    }
}

/* What comes into the empty way while the status byte is under way is told by the next one. */
static void status_again(void) {
    begin(4, 5);
    bus_leaves("2");
    on_loop(TALK_ON_LOOP);
    GIVES(frame(5, 97), FRAME(1, 65));
    on_bus(20);
    DUE_HELD(TO_LOOP, 0, 1), DUE_NEWS(TO_LOOP, 1), cell_to_loop(0, '3');
    DOES(byte('3'), DONE);
    DUE_SENDING(1, 0);
    DOES(frame(0, 65), FRAME(5, 64));
    DUE_SENDING(3, 65), DUE(TO_LOOP_REQUEST, 0), DUE(TO_LOOP_AGAIN, 0);
    DOES(frame(5, 97), FRAME(1, 65));
    GIVES(frame(0, 65), FRAME(5, 64));
    on_bus(20);
    GIVES(frame(5, 97), FRAME(0, 0));
    GIVES(byte('4'), DONE);
    DUE_SENDING(1, 0);
    DOES(frame(1, 0), FRAME(5, 64));
    GIVES(frame(5, 97), FRAME(1, 65));
}

/* A status byte that did not show bit 0 does not end it, in no state: here the block is set to one that calls never reach. */
static void status_not_shown(void) {
    begin(4, 5);
    bus_leaves("2");
    block[RAFTERSHIM_MAILBOX_AT_TO_LOOP_AGAIN] = 0;
    block[RAFTERSHIM_MAILBOX_AT_LOOP_TALKER] = RAFTERSHIM_TALKER_STATUS;
    block[RAFTERSHIM_MAILBOX_AT_UNDER_WAY] = 64;
    keep();
    DUE_SENDING(1, 0);
    DOES(frame(0, 64), FRAME(5, 64));
}

/* Send Device ID, Send Accessory ID: with the service bit while service is requested; nothing waiting is touched */
static void ids(void) {
    static const uint8_t id[] = "HP82169A\r\n";
    begin(4, 5);
    DOES(frame(5, 98), FRAME(5, 98));
    DOES(frame(5, 99), FRAME(5, 99));
    bus_leaves("2");
    on_loop(TALK_ON_LOOP);
    for (uint32_t n = 0; n < 10; n++) {
        DUE_SENDING(2, id[n]), DUE(SOURCE, n + 1);
        DOES(n ? frame(0, id[n - 1]) : frame(5, 98), FRAME(1, id[n]));
    }
    DUE_SENDING(1, 0);
    DOES(frame(1, 10), FRAME(5, 64));
    DUE_SENDING(2, 67);
    DOES(frame(5, 99), FRAME(1, 67));
    DUE_SENDING(1, 0);
    DOES(frame(0, 67), FRAME(5, 64));
    DUE_SENDING(3, 65), DUE(TO_LOOP_REQUEST, 0), DUE(TO_LOOP_AGAIN, 0);
    DOES(frame(5, 97), FRAME(1, 65));
    DUE_SENDING(1, 0), DUE(TO_LOOP_AVAILABLE, 0);
    DOES(frame(0, 65), FRAME(5, 64));
}

/* An ID is cut short by damage and by 5,66; what waits is sent after it as if nothing had been. */
static void ids_cut(void) {
    begin(4, 5);
    bus_leaves("2");
    on_loop(TALK_ON_LOOP);
    GIVES(frame(5, 98), FRAME(1, 72));
    GIVES(frame(5, 66), FRAME(5, 66));
    DUE_SENDING(1, 0), DUE(FINISHING, 0);
    DOES(frame(0, 72), FRAME(5, 64));
    GIVES(frame(5, 98), FRAME(1, 72));
    DUE_SENDING(1, 0);
    DOES(frame(0, 73), FRAME(5, 65));
    DUE_HELD(TO_LOOP, 1, 0), DUE_NEWS(TO_LOOP, 0), DUE_SENDING(2, '2'), DUE(SOURCE, 0);
    DOES(frame(5, 96), FRAME(1, '2'));
}

/* Ready For Command and every ready frame of no row pass and do nothing, whoever we are. */
static void other_ready(void) {
    begin(4, 5);
    GIVES(frame(5, 129), FRAME(5, 130));
    bus_leaves("2");
    for (uint32_t role = 0; role < 3; role++) {
        on_loop(role == 0 ? 63 : role == 1 ? 33 : 65);
        for (uint32_t d = 0; d < 256; d++) {
            if (role < 2 || d < 96 || d > 99) DOES(frame(5, d), FRAME(5, d));
        }
    }
}

int main(void) {
    reading();
    damaged();
    finishing();
    cleared_under_way();
    status();
    status_lost();
    status_again();
    status_not_shown();
    ids();
    ids_cut();
    other_ready();
    return ended("the manual");
}
