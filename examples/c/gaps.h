/*
 * Where bytes are missing in what comes from the line, so that each reading is told whether one is missing in it.
 *
 * A byte is lost only when the receive store is full, and it falls after a byte that was stored. So a gap is a number: how many bytes had
 * been stored before it. It is in the reading whose bytes are taken next: the one that has not ended before the gap. Gaps ahead of what
 * is taken lie among the bytes held, at most one before each of them and one after the last, so the list has room for all.
 *
 * A reset and a device clear throw the held bytes away unread: call gaps_thrown_away after each. The next reading is then told as
 * missing a byte, though it may be whole. A break cuts off the reading that it falls into, and no frame says so: call gaps_here after each.
 * The reading that it falls into is then told as missing a byte, and if it falls between two readings, the one after it. Every other
 * reading is told exactly, and none that misses a byte is told as whole.
 * After create set all of this to 0.
 */
#ifndef GAPS_H
#define GAPS_H

#include "raftershim.h"

/* The length of the receive store, in cells. */
#ifndef RECEIVE_LEN
#define RECEIVE_LEN 8u
#endif

struct gaps {
    uint32_t lost;                 /* the count of lost bytes when it was last looked at */
    uint32_t taken;                /* how many stored bytes had been taken when it was last looked at */
    int missing;                   /* a gap lies before them, in the reading that has not ended */
    uint32_t count;                /* how many gaps are ahead */
    uint32_t at[RECEIVE_LEN + 1u]; /* each as the number of bytes stored before it, in order */
};

/* Goes on to what is taken by now: a gap before it is in the reading that has not ended. The numbers come round, so differences count. */
static inline void gaps_pass(struct gaps *gaps, const uint8_t *block) {
    uint32_t taken = RAFTERSHIM_STORED(block) - RAFTERSHIM_RECEIVE_HELD(block), passed = 0u;
    while (passed < gaps->count && gaps->at[passed] - gaps->taken < taken - gaps->taken) passed++;
    for (uint32_t i = passed; i < gaps->count; i++) gaps->at[i - passed] = gaps->at[i];
    gaps->count -= passed;
    gaps->missing |= passed != 0u;
    gaps->taken = taken;
}

/* Notes a gap after what is stored: for a byte that was lost on the way to the bridge, which counts it not, and for a break. */
static inline void gaps_here(struct gaps *gaps, const uint8_t *block) {
    uint32_t stored = RAFTERSHIM_STORED(block);
    gaps_pass(gaps, block);
    if (gaps->count == 0u || gaps->at[gaps->count - 1u] != stored) gaps->at[gaps->count++] = stored;
}

/* To be called after each line byte: notes a gap if the bridge has lost it. */
static inline void gaps_note(struct gaps *gaps, const uint8_t *block) {
    if (RAFTERSHIM_LOST(block) == gaps->lost) return;
    gaps->lost = RAFTERSHIM_LOST(block);
    gaps_here(gaps, block);
}

/*
 * To be called after a reset or a device clear: no gap is ahead any more, and the next reading may lack what was thrown away. After a reset
 * the two counts catch up at the next line byte; if that notes a gap, it is in the same reading.
 */
static inline void gaps_thrown_away(struct gaps *gaps) {
    gaps->count = 0u;
    gaps->missing = 1;
}

/* To be called when a reading has ended, and no byte after it was taken: whether a byte is missing in it. */
static inline int gaps_in_reading(struct gaps *gaps, const uint8_t *block) {
    gaps_pass(gaps, block);
    int missing = gaps->missing;
    gaps->missing = 0;
    return missing;
}

#endif
