/*
 * What the tests of the C functions share: comparing an answer with what is wanted, and the lent buffers with copies of them. A test has a
 * block and two stores, which it names FIRST and SECOND before it includes this.
 */
#ifndef COMPARE_H
#define COMPARE_H

#include <stdint.h>
#include <stdio.h>
#include <string.h>

static uint8_t block_was[sizeof block], first_was[sizeof FIRST], second_was[sizeof SECOND];
static int compared, differ;

static inline void expect(const char *file, int line, uint64_t got, uint64_t wanted) {
    compared++;
    if (got == wanted) return;
    differ++;
    printf("%s:%d: got %llx, wanted %llx\n", file, line, (unsigned long long)got, (unsigned long long)wanted);
}

static inline void keep(void) {
    memcpy(block_was, block, sizeof block);
    memcpy(first_was, FIRST, sizeof FIRST);
    memcpy(second_was, SECOND, sizeof SECOND);
}

/* how many of the two stores, and of the three buffers, differ from their copies */
static inline uint64_t stores_changed(void) {
    return (memcmp(first_was, FIRST, sizeof FIRST) != 0) + (memcmp(second_was, SECOND, sizeof SECOND) != 0);
}
static inline uint64_t changed(void) { return (memcmp(block_was, block, sizeof block) != 0) + stores_changed(); }

#define IS(call, wanted) expect(__FILE__, __LINE__, call, wanted)
#define REFUSED(n, call)          \
    do {                          \
        keep();                   \
        IS(call, 4ull << 16 | (n)); \
        IS(changed(), 0);         \
    } while (0)

#define DONE (0ull << 16)
#define NONE (1ull << 16)
#define BYTE(b) (2ull << 16 | (b))
#define FRAME(c, d) (3ull << 16 | (c) << 8 | (d))
#define PART(start, len) ((uint64_t)(start) << 32 | (len))
/* an answer that tells this room */
#define ROOM(room, answer) ((uint64_t)(room) << 32 | (answer))

/* Says how many answers were compared, and gives the exit status. */
static inline int ended(const char *source) {
    if (differ) {
        printf("%d of %d differ\n", differ, compared);
        return 1;
    }
    printf("%d compared, all as %s says\n", compared, source);
    return 0;
}

#endif
