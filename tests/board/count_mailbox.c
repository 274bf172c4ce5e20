/* Rounds of a reading through the mailbox each way for counting instructions on the board: the bus leaves it and the loop fetches it, then
 * the other way. Stores of 64. */
#include "raftershim_mailbox.h"

#define ROUNDS 40
#define LENT block, sizeof block, to_bus, 64, to_loop, 64

static uint8_t block[RAFTERSHIM_MAILBOX_BLOCK_LEN];
static uint16_t to_bus[64], to_loop[64];

/* Gives how many end marks the bus has fetched. No instruction of this function counts, only those of the calls. */
__attribute__((noinline)) static uint32_t work(void) {
    static const uint16_t frames[] = {0x44F, 0x560, 0x032, 0x02E, 0x235, 0x42F, 0x032, 0x02E, 0x235};
    uint32_t ends = 0;
    for (int round = 0; round < ROUNDS; round++) {
        raftershim_mailbox_bus_command(LENT, 35);
        for (uint32_t i = 0; i < 3; i++) raftershim_mailbox_bus_byte(LENT, "2.5"[i], i == 2);
        for (uint32_t i = 0; i < sizeof frames / sizeof *frames; i++) raftershim_mailbox_loop_frame(LENT, frames[i]);
        raftershim_mailbox_bus_command(LENT, 67);
        for (uint32_t i = 0; i < 3; i++) ends += RAFTERSHIM_MAILBOX_END(raftershim_mailbox_bus_fetch(LENT));
    }
    return ends;
}

int main(void) {
    raftershim_mailbox_create(LENT, 3);
    return work() != ROUNDS || RAFTERSHIM_MAILBOX_TO_LOOP_HELD(block) != 0;
}
