/* The mailbox's C functions: lengths, refusals, blocks that are no state, the block of the other product, showing, and what the header reads. */
#ifndef MOST
#define MOST 32768
#endif
#include "mailbox.h"

#define BLOCK RAFTERSHIM_MAILBOX_BLOCK_LEN

/* the header reads an answer alike, whatever its reserved bits are; and a cell, whatever is above its end mark */
static void reserved(void) {
    for (uint64_t above = 0; above < 2; above++) {
        uint64_t rest = above ? ~0ull << 24 : 0;
        IS(RAFTERSHIM_KIND(rest | BYTE(306)), RAFTERSHIM_BYTE);
        IS(RAFTERSHIM_MAILBOX_BYTE(rest | BYTE(306)), 50);
        IS(RAFTERSHIM_MAILBOX_END(rest | BYTE(306)), 1);
        IS(RAFTERSHIM_MAILBOX_END(rest | BYTE(50)), 0);
        IS(RAFTERSHIM_KIND(rest | LINES(128, 1)), RAFTERSHIM_MAILBOX_LINES);
        IS(RAFTERSHIM_MAILBOX_POLL(rest | LINES(128, 1)), 128);
        IS(RAFTERSHIM_MAILBOX_SRQ(rest | LINES(128, 1)), 1);
        IS(RAFTERSHIM_MAILBOX_SRQ(rest | LINES(128, 0)), 0);
    }
    IS(RAFTERSHIM_MAILBOX_BYTE((uint16_t)0xFEFF), 255);
    IS(RAFTERSHIM_MAILBOX_END((uint16_t)0xFEFF), 0);
    IS(RAFTERSHIM_MAILBOX_END((uint16_t)0xFF00), 1);
}

/* the lengths that only the longest stores have */
static void large_sizes(void) {
    REFUSED(1, create(MOST + 1, 1, 0));
    REFUSED(1, create(1, MOST + 1, 0));
    IS(create(MOST, MOST, 0), DONE);
    IS(RAFTERSHIM_TWO(block, RAFTERSHIM_MAILBOX_AT_TO_BUS_LEN), MOST);
    IS(RAFTERSHIM_TWO(block, RAFTERSHIM_MAILBOX_AT_TO_LOOP_LEN), MOST);
}

/* the start: nothing waits, no address on the loop, this one on the bus, nothing else on */
static void starts(uint32_t address) {
    memset(block, 255, sizeof block);
    keep();
    memset(block_was, 0, BLOCK);
    DUE(VERSION, 129), DUE(TO_BUS_LEN, 4), DUE(TO_LOOP_LEN, 3), DUE(LOOP_ADDRESS, 31), DUE(BUS_ADDRESS, address);
    DOES(create(4, 3, address), DONE);
}

/* refusal 1 */
static void sizes(void) {
    IS(raftershim_mailbox_block_len(), BLOCK);
    REFUSED(1, create(0, 3, 7));
    REFUSED(1, create(4, 0, 7));
    REFUSED(1, create(0xFFFFFFFFFFFFFFFFull, 3, 7));
    REFUSED(1, create(4, 3, 31));
    REFUSED(1, create(4, 3, 256));
    REFUSED(1, create(4, 3, 0xFFFFFFFFu));
    if (MOST == 32768) large_sizes();
    for (block_len = 0; block_len <= sizeof block; block_len++) {
        if (block_len != BLOCK) REFUSED(1, create(4, 3, 7));
    }
    block_len = BLOCK;
    IS(create(1, 1, 0), DONE);
    for (uint32_t address = 0; address <= 30; address++) starts(address);
}

/* refusal 2 for every call but showing a store, before any other refusal */
static void misfits(void) {
    REFUSED(2, reset());
    REFUSED(2, frame(5, 129));
    REFUSED(2, frame(8, 0));
    REFUSED(2, command(LISTEN_ON_BUS));
    REFUSED(2, command(128));
    REFUSED(2, byte(50));
    REFUSED(2, last(50));
    REFUSED(2, fetch());
    REFUSED(2, clear());
    REFUSED(2, lines());
    keep();
    DOES(show(0), 0);
    DOES(show(1), 0);
}

/* Sets a byte of the block: the block is then a state, or it is none. */
static void spoilt(uint32_t at, uint32_t value, int fits) {
    uint8_t was = block[at];
    block[at] = (uint8_t)value;
    keep();
    if (fits) DOES(lines(), LINES(0, block[RAFTERSHIM_MAILBOX_AT_TO_BUS_REQUEST]));
    else misfits();
    block[at] = was;
}

#define SPOILT(field, most) spoilt(RAFTERSHIM_MAILBOX_AT_##field, most, 1), spoilt(RAFTERSHIM_MAILBOX_AT_##field, (most) + 1, 0)

/* the largest value of each field fits, the next one does not; a flag is 0 or 1 */
static void ranges(void) {
    begin(4, 3);
    loop_leaves("ab");
    on_loop(63);
    bus_leaves("c");
    on_bus(63);
    SPOILT(TO_BUS_OLDEST, 3), SPOILT(TO_BUS_HELD, 4), SPOILT(TO_LOOP_OLDEST, 2), SPOILT(TO_LOOP_HELD, 3);
    SPOILT(LOOP_ADDRESS, 31), SPOILT(LOOP_TALKER, 3), SPOILT(SOURCE, 10), SPOILT(LOOP_POLL_LINE, 7);
    SPOILT(BUS_ADDRESS, 30), SPOILT(BUS_TALKER, 1), SPOILT(BUS_POLL_LINE, 7);
    spoilt(RAFTERSHIM_MAILBOX_AT_UNDER_WAY + 1u, 3, 1), spoilt(RAFTERSHIM_MAILBOX_AT_UNDER_WAY + 1u, 4, 0);
    spoilt(RAFTERSHIM_MAILBOX_AT_HELD_FRAME + 1u, 3, 1), spoilt(RAFTERSHIM_MAILBOX_AT_HELD_FRAME + 1u, 4, 0);
    SPOILT(LOOP_LISTENER, 1), SPOILT(FINISHING, 1);
    for (uint32_t at = RAFTERSHIM_MAILBOX_AT_BUS_LISTENER; at < BLOCK; at++) spoilt(at, 2, 0), spoilt(at, 255, 0);
    for (uint32_t phase = 1; phase <= 3; phase++) {
        block[RAFTERSHIM_MAILBOX_AT_LOOP_TALKER] = (uint8_t)phase;
        spoilt(RAFTERSHIM_MAILBOX_AT_LOOP_LISTENER, 1, 0);
    }
    block[RAFTERSHIM_MAILBOX_AT_LOOP_TALKER] = 0;
    block[RAFTERSHIM_MAILBOX_AT_BUS_TALKER] = 1;
    spoilt(RAFTERSHIM_MAILBOX_AT_BUS_LISTENER, 1, 0);
}

/* blocks and stores of another length, and other blocks of the same */
static void other_blocks(void) {
    begin(4, 3);
    loop_leaves("a");
    for (block_len = 0; block_len <= sizeof block; block_len++) {
        if (block_len != BLOCK) misfits();
    }
    block_len = BLOCK;
    to_bus_len = 5;
    misfits();
    to_bus_len = 4, to_loop_len = 2;
    misfits();
    to_bus_len = 3, to_loop_len = 4;
    misfits();
    to_bus_len = 4, to_loop_len = 3;
    for (uint32_t version = 0; version < 256; version++) {
        block[RAFTERSHIM_MAILBOX_AT_VERSION] = (uint8_t)version;
        if (version != RAFTERSHIM_MAILBOX_VERSION) misfits();
    }
    memset(block, 0, sizeof block);
    misfits();
    memset(block, 255, sizeof block);
    misfits();
}

/* a block of one product is no state of the other, by its length and by its version */
static void other_product(void) {
    static uint16_t rx[8];
    static uint8_t tx[3];
    begin(8, 3);
    for (block_len = BLOCK; block_len <= RAFTERSHIM_BLOCK_LEN; block_len += RAFTERSHIM_BLOCK_LEN - BLOCK) {
        REFUSED(2, raftershim_line_byte(block, block_len, rx, 8, tx, sizeof tx, 50));
        REFUSED(2, raftershim_loop_frame(block, block_len, rx, 8, tx, sizeof tx, 0x581));
        IS(raftershim_show_receive(block, block_len, rx, 8, tx, sizeof tx), 0);
    }
    block_len = RAFTERSHIM_BLOCK_LEN;
    GIVES(raftershim_create(block, block_len, rx, 8, tx, sizeof tx, 3), DONE);
    misfits();
    block_len = BLOCK;
    misfits();
    IS(block[0], RAFTERSHIM_VERSION);
    block_len = RAFTERSHIM_BLOCK_LEN;
    IS(raftershim_line_byte(block, block_len, rx, 8, tx, sizeof tx, 50), ROOM(7, DONE));
    block_len = BLOCK;
}

/* refusals 3 and 13, before 4; 2047 and 127 are none */
static void too_large(void) {
    begin(1, 1);
    loop_leaves("a");
    bus_leaves("b");
    REFUSED(4, frame(0, 65));
    REFUSED(4, byte(65));
    REFUSED(3, raftershim_mailbox_loop_frame(LENT, 2048));
    REFUSED(3, raftershim_mailbox_loop_frame(LENT, 0x10041));
    REFUSED(3, raftershim_mailbox_loop_frame(LENT, 0xFFFFFFFFu));
    DOES(raftershim_mailbox_loop_frame(LENT, 2047), FRAME(7, 255));
    REFUSED(13, command(128));
    REFUSED(13, command(256 + TALK_ON_BUS));
    REFUSED(13, command(0xFFFFFFFFu));
    DOES(command(127), DONE);
}

/* the longest run from the oldest cell, which is as it stands in the buffer; the bits above the end mark do not count when it is read */
static void showing(void) {
    begin(3, 2);
    DOES(show(RAFTERSHIM_MAILBOX_TO_BUS), 0);
    DOES(show(RAFTERSHIM_MAILBOX_TO_LOOP), 0);
    loop_leaves("abc");
    bus_leaves("d");
    DOES(show(0), PART(0, 3));
    DOES(show(1), PART(0, 1));
    DOES(show(2), 0);
    DOES(show(0xFFFFFFFFu), 0);
    on_bus(TALK_ON_BUS);
    GIVES(fetch(), BYTE('a'));
    DOES(show(0), PART(1, 2));
    GIVES(frame(2, 'e'), FRAME(3, 'e'));
    DOES(show(0), PART(1, 2));
    IS(to_bus[0], 256 + 'e');
    to_bus[1] |= 0xFE00, to_bus[2] |= 0x8000, to_bus[0] |= 0x0200;
    keep();
    DOES(show(0), PART(1, 2));
    GIVES(fetch(), BYTE('b'));
    GIVES(fetch(), BYTE('c'));
    DOES(show(0), PART(0, 1));
    GIVES(fetch(), BYTE(256 + 'e'));
    DOES(show(0), 0);
    to_loop[0] = 0xFF00 | 'd';
    on_loop(TALK_ON_LOOP);
    GIVES(frame(5, 96), FRAME(3, 'd'));
}

/* reset gives what create gives, whatever was before, and writes no store */
static void resetting(void) {
    uint8_t start[sizeof block];
    begin(3, 2);
    memcpy(start, block, sizeof start);
    GIVES(frame(5, 130), FRAME(5, 131));
    on_loop(34), on_loop(15), on_loop(128);
    GIVES(frame(0, 65), FRAME(0, 65));
    bus_leaves("b");
    on_bus(5), on_bus(97), on_bus(24), on_bus(TALK_ON_BUS);
    memcpy(block_was, start, sizeof start);
    DOES(reset(), DONE);
    DOES(reset(), DONE);
}

/* what the header reads from the block */
static void fields(void) {
    begin(3, 2);
    IS(block[RAFTERSHIM_MAILBOX_AT_VERSION], RAFTERSHIM_MAILBOX_VERSION);
    loop_leaves("ab");
    bus_leaves("c");
    IS(RAFTERSHIM_MAILBOX_TO_BUS_HELD(block), 2);
    IS(RAFTERSHIM_MAILBOX_TO_LOOP_HELD(block), 1);
    IS(RAFTERSHIM_MAILBOX_BUS_STATUS(block), RAFTERSHIM_MAILBOX_STATUS_SERVICE | RAFTERSHIM_MAILBOX_STATUS_AVAILABLE);
    on_loop(TALK_ON_LOOP);
    IS(RAFTERSHIM_MAILBOX_LOOP_STATUS(block), 65);
    GIVES(frame(5, 97), FRAME(1, 65));
    IS(RAFTERSHIM_MAILBOX_LOOP_STATUS(block), 1);
    GIVES(frame(1, 65), FRAME(5, 64));
    IS(RAFTERSHIM_MAILBOX_LOOP_STATUS(block), 0);
    IS(RAFTERSHIM_MAILBOX_BUS_STATUS(block), 65);
}

int main(void) {
    reserved();
    sizes();
    ranges();
    other_blocks();
    other_product();
    too_large();
    showing();
    resetting();
    fields();
    return ended("the manual");
}
