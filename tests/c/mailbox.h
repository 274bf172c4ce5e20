/* What the tests of the mailbox's C functions share: the lent buffers, the calls on them, and the state that is due after a call. */
#ifndef MAILBOX_TEST_H
#define MAILBOX_TEST_H

#include "raftershim_mailbox.h"

/* The longest store. */
#ifndef MOST
#define MOST 8
#endif

/* The block has room for one of the bridge, which is longer. */
static uint8_t block[RAFTERSHIM_BLOCK_LEN];
static uint16_t to_bus[MOST + 1], to_loop[MOST + 1];
static uint64_t block_len = RAFTERSHIM_MAILBOX_BLOCK_LEN, to_bus_len, to_loop_len;

#define FIRST to_bus
#define SECOND to_loop
#include "compare.h"

#define LENT block, block_len, to_bus, to_bus_len, to_loop, to_loop_len
#define LINES(poll, srq) (5ull << 16 | (srq) << 8 | (poll))

static inline uint64_t create(uint64_t bus_len, uint64_t loop_len, uint32_t address) {
    to_bus_len = bus_len;
    to_loop_len = loop_len;
    return raftershim_mailbox_create(LENT, address);
}
static inline uint64_t reset(void) { return raftershim_mailbox_reset(LENT); }
static inline uint64_t frame(uint32_t c, uint32_t d) { return raftershim_mailbox_loop_frame(LENT, c << 8 | d); }
static inline uint64_t command(uint32_t c) { return raftershim_mailbox_bus_command(LENT, c); }
static inline uint64_t byte(uint8_t b) { return raftershim_mailbox_bus_byte(LENT, b, 0); }
static inline uint64_t last(uint8_t b) { return raftershim_mailbox_bus_byte(LENT, b, 1); }
static inline uint64_t fetch(void) { return raftershim_mailbox_bus_fetch(LENT); }
static inline uint64_t clear(void) { return raftershim_mailbox_bus_clear(LENT); }
static inline uint64_t lines(void) { return raftershim_mailbox_bus_lines(LENT); }
static inline uint64_t show(uint32_t side) { return raftershim_mailbox_show(LENT, side); }

/* The copies are what is due: a test says by hand which fields and cells a call changes. DOES compares the answer and all three buffers. */
static inline void put(uint32_t at, uint32_t value) {
    block_was[at] = (uint8_t)value;
    if (at != 0u && at < RAFTERSHIM_MAILBOX_AT_LOOP_ADDRESS) block_was[at + 1u] = (uint8_t)(value >> 8);
}
static inline void cell_to_bus(uint32_t place, uint16_t cell) { memcpy(first_was + 2u * place, &cell, sizeof cell); }
static inline void cell_to_loop(uint32_t place, uint16_t cell) { memcpy(second_was + 2u * place, &cell, sizeof cell); }

#define DUE(field, value) put(RAFTERSHIM_MAILBOX_AT_##field, value)
#define DUE_HELD(way, oldest, held) DUE(way##_OLDEST, oldest), DUE(way##_HELD, held)
#define DUE_NEWS(way, on) DUE(way##_REQUEST, on), DUE(way##_AVAILABLE, on), DUE(way##_AGAIN, on)
#define DUE_SENDING(phase, under_way) DUE(LOOP_TALKER, phase), DUE(UNDER_WAY, under_way)
#define DOES(call, wanted)  \
    do {                    \
        IS(call, wanted);   \
        IS(changed(), 0);   \
    } while (0)
/* Compares the answer alone, of a call whose other effects are compared elsewhere. */
#define GIVES(call, wanted) \
    do {                    \
        IS(call, wanted);   \
        keep();             \
    } while (0)

/* The commands of the tests. On the loop we are unassigned, so our address is 15; on the bus it is 3. */
#define LISTEN_ON_LOOP 47u
#define TALK_ON_LOOP 79u
#define LISTEN_ON_BUS 35u
#define TALK_ON_BUS 67u

/* A new mailbox with stores of these lengths, full of what no call writes. */
static inline void begin(uint64_t bus_len, uint64_t loop_len) {
    memset(to_bus, 0xA5, sizeof to_bus);
    memset(to_loop, 0xA5, sizeof to_loop);
    GIVES(create(bus_len, loop_len, 3), DONE);
}
static inline void on_loop(uint32_t d) { GIVES(frame(4, d), FRAME(4, d)); }
static inline void on_bus(uint32_t c) { GIVES(command(c), DONE); }

/* The loop leaves characters for the bus, the first into an empty way; the bus leaves characters for the loop. */
static inline void loop_leaves(const char *text) {
    on_loop(LISTEN_ON_LOOP);
    for (; *text; text++) GIVES(frame(0, (uint8_t)*text), FRAME(0, (uint8_t)*text));
}
static inline void bus_leaves(const char *text) {
    on_bus(LISTEN_ON_BUS);
    for (; *text; text++) GIVES(byte((uint8_t)*text), DONE);
}

#endif
