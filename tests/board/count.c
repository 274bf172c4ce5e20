/* Rounds of the paper's reading for counting instructions on the board: five line bytes, then the frames that read them. Stores of 64. */
#include "raftershim.h"

#define ROUNDS 40
#define LENT block, sizeof block, rx, 64, tx, 64

static uint8_t block[RAFTERSHIM_BLOCK_LEN], tx[64];
static uint16_t rx[64];

/* No instruction of this function counts, only those of the calls. */
__attribute__((noinline)) static void work(void) {
    static const uint8_t bytes[] = {0x32, 0x2E, 0x35, 0x0D, 0x0A};
    static const uint16_t frames[] = {0x560, 0x032, 0x02E, 0x235};
    for (int round = 0; round < ROUNDS; round++) {
        for (uint32_t i = 0; i < sizeof bytes; i++) raftershim_line_byte(LENT, bytes[i]);
        for (uint32_t i = 0; i < sizeof frames / sizeof *frames; i++) raftershim_loop_frame(LENT, frames[i]);
    }
}

int main(void) {
    raftershim_create(LENT, 8);
    raftershim_write_register(LENT, 10, 8);
    raftershim_loop_frame(LENT, 0x581);
    raftershim_loop_frame(LENT, 0x441);
    work();
    return RAFTERSHIM_SENT(block) != 3 * ROUNDS;
}
