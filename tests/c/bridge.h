/* What the tests of the bridge's C functions share: the lent buffers, the calls on them, and what calls answer that tell a room. */
#ifndef BRIDGE_TEST_H
#define BRIDGE_TEST_H

#include "raftershim.h"

#define BLOCK ((int)RAFTERSHIM_BLOCK_LEN)
/* The longest store. A board with little memory runs the small form, with 64: all but what only the largest stores can show. */
#ifndef MOST
#define MOST 32768
#endif

static uint8_t block[BLOCK + 1], tx[MOST + 1];
static uint16_t rx[MOST + 1];
static uint64_t block_len = BLOCK, rx_len, tx_len;

#define FIRST rx
#define SECOND tx
#include "compare.h"

/* what the two calls answer that tell a room: done, and a frame */
#define TAKEN(room) ROOM(room, DONE)
#define OUT(room, c, d) ROOM(room, FRAME(c, d))

#define LENT block, block_len, rx, rx_len, tx, tx_len

static inline uint64_t create(uint64_t r, uint64_t t, uint32_t margin) {
    rx_len = r;
    tx_len = t;
    return raftershim_create(LENT, margin);
}
static inline uint64_t reset(void) { return raftershim_reset(LENT); }
static inline uint64_t writes(uint32_t n, uint32_t v) { return raftershim_write_register(LENT, n, v); }
static inline uint64_t line(uint8_t b) { return raftershim_line_byte(LENT, b); }
static inline uint64_t brk(void) { return raftershim_break(LENT); }
static inline uint64_t key(void) { return raftershim_key(LENT); }
static inline uint64_t ask(void) { return raftershim_ask_line_byte(LENT); }
static inline uint64_t take(uint8_t b) { return raftershim_take_line_byte(LENT, b); }
static inline uint64_t frame(uint32_t c, uint32_t d) { return raftershim_loop_frame(LENT, c << 8 | d); }
static inline uint64_t show_receive(void) { return raftershim_show_receive(LENT); }
static inline uint64_t show_transmit(void) { return raftershim_show_transmit(LENT); }

/* what goes out on the line: this byte is asked for and taken, and nothing is next; asking changes nothing, and no other byte is taken */
static inline void goes_out(uint8_t b) {
    keep();
    IS(ask(), BYTE(b));
    IS(changed(), 0);
    REFUSED(RAFTERSHIM_NOT_NEXT, take(b ^ 1));
    IS(take(b), DONE);
}
static inline void nothing_next(void) {
    keep();
    IS(ask(), NONE);
    IS(changed(), 0);
    REFUSED(RAFTERSHIM_NOT_NEXT, take(0));
}

#endif
