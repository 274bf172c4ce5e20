/*
 * The main loop of a dongle: a serial port on one side, frames on the other, the proved bridge between.
 *
 * It knows no board: ports.h has what it asks of one. It never waits, so no side holds up the other. It says of each reading that goes
 * out whether a byte is missing in it.
 */
#include "frames.h"
#include "gaps.h"
#include "ports.h"

#define MARGIN 8u

static uint8_t block[RAFTERSHIM_BLOCK_LEN], tx[64];
static uint16_t rx[RECEIVE_LEN];
static struct gaps gaps;

#define LENT block, sizeof block, rx, RECEIVE_LEN, tx, sizeof tx

/*
 * A byte that has come from the line. Where a port has lost one is not known: from then on a gap is noted before every byte that it gives
 * and after the last, until it gives none. It is asked after the taking, so a loss just before a byte is known before that byte is stored.
 */
static void line_in(void) {
    static int overran;
    uint8_t byte;
    int came = line_take(&byte), overran_before = overran;
    overran = line_overran() || (came && overran_before);
    if (overran || overran_before) gaps_here(&gaps, block);
    if (!came) return;
    raftershim_line_byte(LENT, byte);
    gaps_note(&gaps, block);
}

/*
 * A byte for the line: it is asked for, sent, and taken when the port has it, with no other call in between. A byte that the port does not
 * take stays in the bridge, and a later turn asks for it again. So the port may be slow, or fail, and nothing is lost.
 */
static void line_out(void) {
    uint64_t answer = raftershim_ask_line_byte(LENT);
    uint8_t byte = (uint8_t)RAFTERSHIM_VALUE(answer);
    if (RAFTERSHIM_KIND(answer) == RAFTERSHIM_BYTE && line_give(byte)) raftershim_take_line_byte(LENT, byte);
}

/* Whether the frame is the end byte of a reading of ours, and not one that passes by. */
static int ends_reading(uint32_t frame) {
    return IS_END_BYTE(frame) && block[RAFTERSHIM_AT_TALKER] == RAFTERSHIM_TALKER_DATA;
}

/* The loop: each frame gives one frame. Refused as busy, it is offered again on a later turn. Answers whether a frame went on. */
static int loop_turn(void) {
    static uint32_t frame;
    static int offered;
    if (!offered && !loop_take(&frame)) return 0;
    uint64_t answer = raftershim_loop_frame(LENT, frame);
    uint32_t value = RAFTERSHIM_VALUE(answer);
    offered = RAFTERSHIM_KIND(answer) == RAFTERSHIM_REFUSED && value == RAFTERSHIM_BUSY;
    if (RAFTERSHIM_KIND(answer) != RAFTERSHIM_FRAME) return 0;
    loop_give(value);
    if (IS_CLEAR(frame, block)) gaps_thrown_away(&gaps);
    if (ends_reading(value)) reading_ended(gaps_in_reading(&gaps, block));
    return 1;
}

int main(void) {
    raftershim_create(LENT, MARGIN);
    raftershim_write_register(LENT, LINE_ENDS);
    line_open();
    for (;;) {
        while (loop_turn()) {
        }
        line_in();
        line_out();
    }
}
