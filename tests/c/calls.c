/* Calls every C function and compares its answer, the block and the stores with what the paper says. */
#include "bridge.h"

/* the header reads kind, value and room alike, whatever the other bits are, and of a cell the byte and the mark */
static void reserved(void) {
    IS(RAFTERSHIM_CELL_BYTE(0xFF35u), 53);
    IS(RAFTERSHIM_CELL_BREAK(0xFF35u), 1);
    IS(RAFTERSHIM_CELL_BREAK(0xFE35u), 0);
    IS(RAFTERSHIM_KIND(BYTE(50)), RAFTERSHIM_BYTE);
    IS(RAFTERSHIM_VALUE(BYTE(50)), 50);
    IS(RAFTERSHIM_KIND(~0ull << 24 | BYTE(50)), RAFTERSHIM_BYTE);
    IS(RAFTERSHIM_VALUE(~0ull << 24 | BYTE(50)), 50);
    IS(RAFTERSHIM_ROOM(BYTE(50)), 0);
    IS(RAFTERSHIM_ROOM(OUT(32768, 7, 255)), 32768);
    IS(RAFTERSHIM_VALUE(OUT(32768, 7, 255)), 2047);
    IS(RAFTERSHIM_ROOM(OUT(7, 5, 64) | 0xFFFFull << 48 | 0xFFull << 24), 7);
}

/* the sizes that only the longest stores have */
static void large_sizes(void) {
    REFUSED(1, create(MOST, 3, 1025));
    REFUSED(1, create(MOST + 1, 3, 1));
    REFUSED(1, create(MOST, MOST + 1, 1));
    IS(create(MOST, MOST, 1024), DONE);
    IS(create(2050, 3, 1024), DONE);
}

/* "Sizes and refusals": refusal 1 */
static void sizes(void) {
    IS(raftershim_block_len(), BLOCK);
    REFUSED(1, create(7, 3, 3));
    REFUSED(1, create(8, 2, 3));
    REFUSED(1, create(8, 3, 0));
    REFUSED(1, create(8, 3, 0xFFFFFFFFu));
    if (MOST == 32768) large_sizes();
    block_len = BLOCK - 1;
    REFUSED(1, create(8, 3, 3));
    block_len = BLOCK + 1;
    REFUSED(1, create(8, 3, 3));
    block_len = BLOCK;
    keep();
    IS(create(8, 3, 3), DONE);
    IS(stores_changed(), 0);
}

/* refusal 2 for every call but showing, on a block that is not a fitting state */
static void misfits(void) {
    REFUSED(2, reset());
    REFUSED(2, writes(99, 99999));
    REFUSED(2, line(50));
    REFUSED(2, brk());
    REFUSED(2, key());
    REFUSED(2, ask());
    REFUSED(2, take(50));
    REFUSED(2, frame(5, 129));
    REFUSED(2, raftershim_loop_frame(LENT, 2048));
    keep();
    IS(show_receive(), 0);
    IS(show_transmit(), 0);
    IS(changed(), 0);
}

static void other_blocks(void) {
    IS(create(8, 3, 3), DONE);
    IS(line(50), TAKEN(7));
    block_len = BLOCK - 1;
    misfits();
    block_len = BLOCK + 1;
    misfits();
    block_len = 0;
    misfits();
    block_len = BLOCK;
    rx_len = 9;
    misfits();
    rx_len = 8;
    tx_len = 4;
    misfits();
    tx_len = 3;
    for (int i = 0; i < BLOCK; i++) {
        uint8_t b = block[i];
        if ((i >= 15 && i < 27) || i == 30 || (i >= 38 && i < 44)) continue; /* counts, the frame under way, characters: another fitting state */
        block[i] = 255;
        misfits();
        block[i] = b;
    }
    for (int version = 0; version < 256; version++) {
        if (version == RAFTERSHIM_VERSION) continue;
        block[0] = (uint8_t)version;
        misfits();
    }
    block[0] = 1;
    memset(block, 0, BLOCK);
    misfits();
    memset(block, 255, BLOCK);
    misfits();
}

/* "Registers": refusals 5 to 8, in that order, with nothing held */
static void registers(void) {
    IS(create(8, 3, 3), DONE);
    for (uint32_t n = 3; n <= 9; n++) REFUSED(5, writes(n, 0));
    for (uint32_t n = 12; n <= 15; n++) REFUSED(5, writes(n, 0));
    REFUSED(5, writes(22, 0));
    REFUSED(5, writes(0xFFFFFFFFu, 0));
    REFUSED(6, writes(0, 16));
    REFUSED(6, writes(16, 256));
    REFUSED(6, writes(10, 0xFFFFFF08u));
    REFUSED(7, writes(0, 2));
    REFUSED(7, writes(2, 2));
    REFUSED(7, writes(10, 1));
    REFUSED(7, writes(11, 4));
    REFUSED(8, writes(20, 19));
    REFUSED(8, writes(21, 17));
    IS(writes(0, 9), DONE);
    IS(writes(1, 15), DONE);
    IS(writes(2, 5), DONE);
    IS(writes(10, 12), DONE);
    IS(writes(11, 8), DONE);
    IS(writes(20, 17), DONE);
    IS(writes(16, 255), DONE);
}

/* something is held: R10, C00 and C01 are refused with 10 whatever the value, unless 5 to 8 come first, and the others are taken */
static void held_line(void) {
    static const uint32_t rule[] = {10, 16, 17};
    for (uint32_t v = 0; v < 256; v++) {
        for (int i = 0; i < 3; i++) REFUSED(i > 0 ? RAFTERSHIM_HELD_BYTES : v > 15 ? 6 : v & 3 ? 7 : RAFTERSHIM_HELD_BYTES, writes(rule[i], v));
    }
    REFUSED(5, writes(9, 0));
    REFUSED(6, writes(16, 256));
    REFUSED(6, writes(17, 0xFFFFFF00u));
    REFUSED(8, writes(20, 19));
    IS(writes(0, 9), DONE);
    IS(writes(11, 8), DONE);
    IS(writes(18, 13), DONE);
}

/* nothing is held: R10, C00 and C01 are written; the last leaves the pair 59, 59 */
static void free_line(void) {
    IS(RAFTERSHIM_RECEIVE_HELD(block), 0);
    IS(writes(10, 8), DONE);
    IS(writes(16, 59), DONE);
    IS(writes(17, 59), DONE);
}

/* "No rule changes under a held line": half a reading is read whole by the pair that it came under */
static void held_lines(void) {
    IS(create(8, 3, 3), DONE);
    IS(line(50), TAKEN(7));
    held_line(); /* R10 bit 3 is off */
    IS(frame(5, 129), OUT(3, 5, 130));
    IS(frame(4, 65), OUT(3, 4, 65));
    IS(frame(5, 96), OUT(3, 0, 50));
    IS(writes(10, 8), DONE); /* the 50 is under way, and not held */
    for (uint8_t b = 0; b < 2; b++) IS(line(b ? 13 : 53), TAKEN(7 - b));
    held_line();
    IS(frame(0, 50), OUT(3, 5, 64));
    held_line(); /* undecided */
    IS(line(10), TAKEN(5));
    IS(frame(5, 96), OUT(3, 2, 53));
    IS(line(13), TAKEN(7));
    IS(line(10), TAKEN(6));
    held_line(); /* a pair that no send has removed */
    IS(frame(2, 53), OUT(3, 5, 64));
    free_line();
    for (uint8_t b = 0; b < 3; b++) IS(line(b ? 59 : 55), TAKEN(7 - b));
    IS(frame(5, 96), OUT(3, 2, 55));
    IS(line(56), TAKEN(7));
    held_line();
    IS(frame(4, 20), OUT(3, 4, 20));
    free_line();
}

/* a store of 8 with margin 3: holding off begins with the fifth byte and not before, the ninth is lost, and with two held it ends */
static void holding(void) {
    IS(create(8, 3, 3), DONE);
    for (uint8_t b = 1; b <= 4; b++) IS(line(b), TAKEN(8 - b));
    nothing_next();
    IS(line(5), TAKEN(3));
    goes_out(19);
    nothing_next();
    for (uint8_t b = 6; b <= 8; b++) IS(line(b), TAKEN(8 - b));
    IS(line(9), TAKEN(0));
    IS(show_receive(), PART(0, 8));
    for (int i = 0; i < 8; i++) IS(rx[i], (uint64_t)i + 1);
    IS(show_transmit(), 0);
    IS(frame(5, 128), OUT(3, 5, 129));
    IS(frame(4, 64), OUT(3, 4, 64));
    IS(frame(5, 96), OUT(3, 0, 1));
    for (uint32_t d = 1; d <= 5; d++) IS(frame(0, d), OUT(3, 0, d + 1));
    goes_out(17);
    IS(show_receive(), PART(6, 2));
    IS(line(10), TAKEN(5));
    IS(show_receive(), PART(6, 2));
    IS(rx[0], 10);
    IS(frame(0, 6), OUT(3, 0, 7));
    IS(frame(0, 7), OUT(3, 0, 8));
    IS(show_receive(), PART(0, 1));
    IS(frame(3, 8), OUT(3, 5, 65));
}

/* a transmit store of 3 with R10 bit 2 on has room for an end byte only while it holds none; the last frame is 2,047, and 2,048 is none */
static void listening(void) {
    IS(create(8, 3, 3), DONE);
    IS(frame(5, 158), OUT(3, 5, 159));
    IS(frame(4, 32 + 30), OUT(3, 4, 32 + 30));
    IS(writes(10, 4), DONE);
    IS(raftershim_loop_frame(LENT, 2047), OUT(3, 7, 255));
    REFUSED(3, raftershim_loop_frame(LENT, 2048));
    REFUSED(3, raftershim_loop_frame(LENT, 0xFFFFFFFFu));
    IS(frame(2, 65), OUT(0, 2, 65));
    IS(show_transmit(), PART(0, 3));
    IS(tx[0], 65);
    IS(tx[1], 13);
    IS(tx[2], 10);
    REFUSED(4, frame(0, 66));
    goes_out(65);
    goes_out(13);
    REFUSED(4, frame(2, 66));
    IS(frame(0, 66), OUT(1, 0, 66));
    IS(show_transmit(), PART(2, 1));
    goes_out(10);
    IS(show_transmit(), PART(0, 1));
    IS(line(19), TAKEN(8));
    nothing_next();
    IS(line(17), TAKEN(8));
    goes_out(66);
    nothing_next();
}

/* "Status byte": break, key and overrun are told, and clear on return */
static void status(void) {
    IS(create(8, 3, 3), DONE);
    IS(frame(5, 129), OUT(3, 5, 130));
    IS(frame(4, 64 + 1), OUT(3, 4, 64 + 1));
    IS(writes(2, 5), DONE);
    IS(writes(0, 8), DONE);
    IS(brk(), DONE);
    IS(key(), DONE);
    IS(raftershim_status(block), 3 + 16 + 64 + 128);
    IS(frame(5, 97), OUT(3, 1, 3 + 16 + 64 + 128));
    IS(frame(1, 3 + 16 + 64 + 128), OUT(3, 5, 64));
    IS(raftershim_status(block), 3);
    IS(frame(5, 97), OUT(3, 0, 3));
    IS(frame(0, 3), OUT(3, 5, 64));
    IS(reset(), DONE);
    memcpy(block_was, block, sizeof block);
    IS(create(8, 3, 3), DONE);
    IS(memcmp(block_was, block, sizeof block), 0);
}

/* what the header reads from the block, after calls whose counts are known */
static void fields(void) {
    IS(create(8, 3, 3), DONE);
    IS(RAFTERSHIM_STORED(block) | RAFTERSHIM_LOST(block) | RAFTERSHIM_SENT(block), 0);
    IS(block[RAFTERSHIM_AT_VERSION], RAFTERSHIM_VERSION);
    IS(RAFTERSHIM_TWO(block, RAFTERSHIM_AT_MARGIN), 3);
    IS(writes(11, 0), DONE);
    for (uint8_t b = 1; b <= 10; b++) IS(line(b), TAKEN(b < 8 ? 8 - b : 0));
    IS(RAFTERSHIM_STORED(block), 8);
    IS(RAFTERSHIM_LOST(block), 2);
    IS(RAFTERSHIM_RECEIVE_HELD(block), 8);
    IS(frame(5, 129), OUT(3, 5, 130));
    IS(frame(4, 64 + 1), OUT(3, 4, 64 + 1));
    IS(raftershim_status(block), 3 + 4 + 8 + 32);
    IS(frame(5, 97), OUT(3, 0, 3 + 4 + 8 + 32));
    IS(block[RAFTERSHIM_AT_TALKER], 3);
    IS(frame(0, 3 + 4 + 8 + 32), OUT(3, 5, 64));
    IS(block[RAFTERSHIM_AT_SEEN_OVERRUN], 0);
    IS(frame(5, 96), OUT(3, 0, 1));
    IS(RAFTERSHIM_TWO(block, RAFTERSHIM_AT_UNDER_WAY), 1);
    IS(frame(0, 1), OUT(3, 0, 2));
    IS(RAFTERSHIM_SENT(block), 2);
    IS(RAFTERSHIM_RECEIVE_HELD(block), 6);
    IS(RAFTERSHIM_TWO(block, RAFTERSHIM_AT_RECEIVE_OLDEST), 2);
    IS(RAFTERSHIM_LOST(block), 2);
    IS(frame(4, 32 + 1), OUT(3, 4, 32 + 1));
    for (uint32_t d = 1; d <= 3; d++) IS(frame(0, d), OUT(3 - d, 0, d));
    IS(RAFTERSHIM_TRANSMIT_HELD(block), 3);
    IS(raftershim_status(block), 4);
    for (int i = 0; i < 4; i++) block[RAFTERSHIM_AT_LOST + i] = (uint8_t)(i + 0xF1);
    IS(RAFTERSHIM_LOST(block), 0xF4F3F2F1u);
}

/* line bytes tell the room of the receive store: stored, go, stop, the one that fills it, and lost */
static void room_of_line_bytes(void) {
    IS(create(6, 3, 2), DONE);
    IS(line(50), TAKEN(5));
    IS(line(17), TAKEN(5));
    IS(line(19), TAKEN(5));
    for (uint8_t b = 1; b <= 4; b++) IS(line(b), TAKEN(5 - b));
    IS(line(51), TAKEN(0));
    IS(RAFTERSHIM_LOST(block), 0);
    IS(line(52), TAKEN(0));
    IS(RAFTERSHIM_LOST(block), 1);
    IS(line(17), TAKEN(0));
    IS(line(19), TAKEN(0));
    /* two sends free two places: the next byte that comes from the line tells it */
    IS(frame(5, 129), OUT(3, 5, 130));
    IS(frame(4, 65), OUT(3, 4, 65));
    IS(frame(5, 96), OUT(3, 0, 50));
    IS(frame(0, 50), OUT(3, 0, 1));
    IS(line(17), TAKEN(2));
    IS(line(53), TAKEN(1));
    /* without the protocol the characters are data */
    IS(writes(11, 0), DONE);
    IS(line(17), TAKEN(0));
}

/* a frame of each kind tells the room of the transmit store, whether it stores a byte, three, or none */
static void room_of_frames(void) {
    IS(create(6, 7, 2), DONE);
    IS(writes(10, 4), DONE);
    IS(line(50), TAKEN(5));
    IS(frame(6, 0), OUT(7, 6, 0));
    IS(frame(5, 129), OUT(7, 5, 130));
    IS(frame(0, 65), OUT(7, 0, 65));
    IS(frame(4, 33), OUT(7, 4, 33));
    IS(frame(0, 65), OUT(6, 0, 65));
    IS(frame(2, 66), OUT(3, 2, 66));
    IS(frame(4, 0), OUT(3, 4, 0));
    IS(frame(7, 255), OUT(3, 7, 255));
    IS(frame(5, 64), OUT(3, 5, 64));
    IS(frame(4, 65), OUT(3, 4, 65));
    IS(frame(0, 67), OUT(3, 0, 67));
    IS(frame(5, 97), OUT(3, 0, 2 + 4));
    IS(frame(0, 2 + 4), OUT(3, 5, 64));
    IS(frame(5, 96), OUT(3, 0, 50));
    IS(frame(0, 51), OUT(3, 5, 65));
    IS(frame(5, 96), OUT(3, 5, 64));
    IS(frame(4, 33), OUT(3, 4, 33));
    IS(frame(3, 68), OUT(0, 3, 68));
    goes_out(65);
    IS(frame(6, 0), OUT(1, 6, 0));
    IS(frame(1, 69), OUT(0, 1, 69));
    IS(frame(4, 20), OUT(7, 4, 20));
    IS(frame(0, 70), OUT(6, 0, 70));
    IS(frame(4, 4), OUT(7, 4, 4));
}

/* a refusal is its number alone, and no other call tells a room, though both stores have some */
static void no_room_told(void) {
    IS(create(6, 7, 2), DONE);
    IS(frame(5, 129), OUT(7, 5, 130));
    IS(frame(4, 33), OUT(7, 4, 33));
    IS(frame(0, 65), OUT(6, 0, 65));
    IS(writes(10, 12), DONE);
    IS(line(50), TAKEN(5));
    IS(brk(), DONE);
    IS(key(), DONE);
    goes_out(65);
    nothing_next();
    REFUSED(12, take(65));
    REFUSED(3, raftershim_loop_frame(LENT, 2048));
    REFUSED(5, writes(3, 0));
    REFUSED(6, writes(0, 16));
    REFUSED(7, writes(11, 4));
    REFUSED(8, writes(20, 19));
    REFUSED(10, writes(10, 12));
    for (uint32_t d = 1; d <= 5; d++) IS(frame(0, d), OUT(7 - d, 0, d));
    REFUSED(4, frame(2, 66));
    rx_len = 7;
    REFUSED(2, line(50));
    REFUSED(2, frame(6, 0));
    rx_len = 6;
    IS(frame(6, 0), OUT(2, 6, 0));
    IS(show_receive(), PART(0, 1));
    IS(reset(), DONE);
    REFUSED(1, create(6, 7, 3));
}

/* the longest stores: the largest room fills the bits that it has */
static void large_rooms(void) {
    IS(create(MOST, MOST, 1024), DONE);
    IS(line(19), TAKEN(MOST));
    IS(frame(6, 0), OUT(MOST, 6, 0));
    for (uint32_t left = MOST; left > 0; left--) IS(line(50), TAKEN(left - 1));
    IS(line(50), TAKEN(0));
    IS(frame(6, 0), OUT(MOST, 6, 0));
}

/* the paper's run of `onepass` */
static void onepass(void) {
    static const uint8_t bytes[] = {0x32, 0x2E, 0x35, 0x0D, 0x0A};
    IS(create(64, 64, 8), DONE);
    IS(writes(10, 8), DONE);
    for (uint64_t i = 0; i < sizeof bytes; i++) IS(line(bytes[i]), TAKEN(63 - i));
    IS(frame(5, 129), OUT(64, 5, 130));
    IS(frame(4, 65), OUT(64, 4, 65));
    IS(frame(5, 96), OUT(64, 0, 50));
    IS(frame(0, 50), OUT(64, 0, 46));
    IS(frame(0, 46), OUT(64, 2, 53));
    IS(frame(2, 53), OUT(64, 5, 64));
    nothing_next();
}

int main(void) {
    reserved();
    sizes();
    other_blocks();
    registers();
    held_lines();
    holding();
    listening();
    status();
    fields();
    room_of_line_bytes();
    room_of_frames();
    no_room_told();
    if (MOST == 32768) large_rooms();
    onepass();
    return ended("the paper");
}
