/*
 * Raftershim: a software HP-IL/HP-IB mailbox, one device on a loop and one on a bus, as C functions.
 *
 * The loop is the HP-IL side, the bus the HP-IB side. Each side leaves bytes for the other and fetches what waits for it. The way to the
 * bus is what the loop leaves for the bus, the way to the loop is what the bus leaves for the loop.
 *
 * The mailbox keeps nothing between calls. The caller lends three buffers at every call, each as a pointer and a length: the block,
 * which holds the state (raftershim_mailbox_block_len() bytes), the store of the way to the bus and the store of the way to the loop, both of
 * cells with their lengths in cells. What raftershim.h says of lent buffers holds for these too: the same three at every call, untouched
 * in between, not overlapping, each pointer not null and good for its length, and one call at a time.
 *
 * A cell is 16 bits: bits 0 to 7 the byte, bit 8 its end mark, which is an end byte on the loop and EOI on the bus. The bits above are
 * written as 0 and do not count when a cell is read.
 *
 * The first byte of a block is the version of its layout, which is 129. A block with another first byte is not a state of a mailbox. So a
 * block of the bridge is none, whose version is 3, and a block of the mailbox is no state of the bridge.
 *
 * Every function but raftershim_mailbox_block_len and raftershim_mailbox_show answers one number of 64 bits, which RAFTERSHIM_KIND and
 * RAFTERSHIM_VALUE of raftershim.h read:
 *
 *   bits 0 to 15    the value, by the kind, and 0 where there is none
 *   bits 16 to 23   the kind: 0 done, 1 none, 2 a byte for the bus with its end mark, 3 a frame, 4 refused, 5 the lines of the bus
 *   bits 24 to 63   reserved: 0 for now, and a reader masks them off
 *
 * The refusals:
 *
 *   1    create: a store's length or the bus address is broken, or the block has the wrong length
 *   2    any other call but showing a store: the block is not a state, or the state does not fit the lent stores
 *   3    a loop frame above 2047
 *   4    busy: we are listener on that side, data came, and the store of the way to the other side is full
 *   13   a bus command above 127
 *
 * Of 2, 3 or 13, and 4 the first that holds is answered. A call that is refused leaves the block and both stores as they were, so a frame
 * or a byte that was refused as busy is not lost: it is offered again when the other side has fetched.
 */
#ifndef RAFTERSHIM_MAILBOX_H
#define RAFTERSHIM_MAILBOX_H

#include "raftershim.h"

#ifdef __cplusplus
extern "C" {
#endif

/* The kind that only the mailbox answers. RAFTERSHIM_DONE, RAFTERSHIM_NONE, RAFTERSHIM_BYTE, RAFTERSHIM_FRAME and RAFTERSHIM_REFUSED are the
 * others, and RAFTERSHIM_BUSY is the refusal that passes. */
#define RAFTERSHIM_MAILBOX_LINES 5u

/* The byte and the end mark, 1 or 0, of an answer that is a byte for the bus, and of a cell. */
#define RAFTERSHIM_MAILBOX_BYTE(cell) ((uint32_t)(cell) & 0xFFu)
#define RAFTERSHIM_MAILBOX_END(cell) ((uint32_t)(cell) >> 8 & 1u)

/* Of an answer that is the lines of the bus: the data lines that answer a parallel poll, and 1 while SRQ is on. */
#define RAFTERSHIM_MAILBOX_POLL(answer) ((uint32_t)(answer) & 0xFFu)
#define RAFTERSHIM_MAILBOX_SRQ(answer) ((uint32_t)(answer) >> 8 & 1u)

/* The sides of raftershim_mailbox_show. RAFTERSHIM_START and RAFTERSHIM_LENGTH read its answer. */
#define RAFTERSHIM_MAILBOX_TO_BUS 0u
#define RAFTERSHIM_MAILBOX_TO_LOOP 1u

/*
 * The layout of a block, version 129: where each field starts, and how it is packed. A number of two bytes has its low byte first; a flag is
 * 1 or 0. A field means what it says while the block is a state, which is after create, and after every later call.
 */
#define RAFTERSHIM_MAILBOX_VERSION 129u
#define RAFTERSHIM_MAILBOX_BLOCK_LEN 41u

#define RAFTERSHIM_MAILBOX_AT_VERSION 0u /* byte: the version */
#define RAFTERSHIM_MAILBOX_AT_TO_BUS_LEN 1u /* two: the length of the store to the bus, in cells */
#define RAFTERSHIM_MAILBOX_AT_TO_BUS_OLDEST 3u /* two: the place of its oldest cell */
#define RAFTERSHIM_MAILBOX_AT_TO_BUS_HELD 5u /* two: how many cells wait in it */
#define RAFTERSHIM_MAILBOX_AT_TO_LOOP_LEN 7u /* two: the length of the store to the loop, in cells */
#define RAFTERSHIM_MAILBOX_AT_TO_LOOP_OLDEST 9u /* two: the place of its oldest cell */
#define RAFTERSHIM_MAILBOX_AT_TO_LOOP_HELD 11u /* two: how many cells wait in it */
#define RAFTERSHIM_MAILBOX_AT_UNDER_WAY 13u /* two: our frame under way on the loop, 0 when there is none */
#define RAFTERSHIM_MAILBOX_AT_HELD_FRAME 15u /* two: the frame that is held back, 0 when none is */
#define RAFTERSHIM_MAILBOX_AT_LOOP_ADDRESS 17u /* byte: our address on the loop, 31 when unassigned */
#define RAFTERSHIM_MAILBOX_AT_LOOP_TALKER 18u /* byte: a talker phase of raftershim.h, its data being what waits or an ID */
#define RAFTERSHIM_MAILBOX_AT_LOOP_LISTENER 19u /* flag: we are listener on the loop */
#define RAFTERSHIM_MAILBOX_AT_FINISHING 20u /* flag: sending ends after the frame under way */
#define RAFTERSHIM_MAILBOX_AT_SOURCE 21u /* byte: what we sent last: 0 what waits, n the device ID up to its byte n, 10 also the accessory ID */
#define RAFTERSHIM_MAILBOX_AT_LOOP_POLL_LINE 22u /* byte: the bit that answers a parallel poll of the loop */
#define RAFTERSHIM_MAILBOX_AT_BUS_ADDRESS 23u /* byte: our address on the bus */
#define RAFTERSHIM_MAILBOX_AT_BUS_TALKER 24u /* byte: 1 while we are talker on the bus, else 0 */
#define RAFTERSHIM_MAILBOX_AT_BUS_POLL_LINE 25u /* byte: the line that answers a parallel poll of the bus */
#define RAFTERSHIM_MAILBOX_AT_BUS_LISTENER 26u /* flag: we are listener on the bus */
#define RAFTERSHIM_MAILBOX_AT_TO_BUS_REQUEST 27u /* flag: service is requested on the bus */
#define RAFTERSHIM_MAILBOX_AT_TO_BUS_AVAILABLE 28u /* flag: bit 0 of the bus's status byte */
#define RAFTERSHIM_MAILBOX_AT_TO_BUS_AGAIN 29u /* flag: that came since the last status byte */
#define RAFTERSHIM_MAILBOX_AT_TO_LOOP_REQUEST 30u /* flag: service is requested on the loop */
#define RAFTERSHIM_MAILBOX_AT_TO_LOOP_AVAILABLE 31u /* flag: bit 0 of the loop's status byte */
#define RAFTERSHIM_MAILBOX_AT_TO_LOOP_AGAIN 32u /* flag: that came since the last status byte was sent */
#define RAFTERSHIM_MAILBOX_AT_NOT_READY 33u /* flag: not ready for data is enabled */
#define RAFTERSHIM_MAILBOX_AT_HOLDING 34u /* flag: a frame is held back */
#define RAFTERSHIM_MAILBOX_AT_LOOP_POLL 35u /* flag: parallel polls of the loop are answered */
#define RAFTERSHIM_MAILBOX_AT_LOOP_POLL_SENSE 36u /* flag: they are answered while service is requested, not while it is not */
#define RAFTERSHIM_MAILBOX_AT_SERIAL_POLL 37u /* flag: the bus is in serial poll mode */
#define RAFTERSHIM_MAILBOX_AT_STATUS_READ 38u /* flag: the status byte was fetched since the last command */
#define RAFTERSHIM_MAILBOX_AT_CONFIGURING 39u /* flag: the next command of the bus may set its poll response */
#define RAFTERSHIM_MAILBOX_AT_BUS_POLL 40u /* flag: parallel polls of the bus are answered while service is requested */

/* How many cells wait in each store. */
#define RAFTERSHIM_MAILBOX_TO_BUS_HELD(block) RAFTERSHIM_TWO(block, RAFTERSHIM_MAILBOX_AT_TO_BUS_HELD)
#define RAFTERSHIM_MAILBOX_TO_LOOP_HELD(block) RAFTERSHIM_TWO(block, RAFTERSHIM_MAILBOX_AT_TO_LOOP_HELD)

/*
 * The bits of a status byte. Each side has its own: it becomes both bits when something comes into the empty way to that side. It is
 * latched, so after it was read it is 0 though bytes may still wait; and it is 0 when nothing waits.
 */
#define RAFTERSHIM_MAILBOX_STATUS_AVAILABLE 1u
#define RAFTERSHIM_MAILBOX_STATUS_SERVICE 64u

/* The status byte that each side would be given now. Reading it here ends no request and clears no bit. */
#define RAFTERSHIM_MAILBOX_BUS_STATUS(block) \
    ((uint32_t)(block)[RAFTERSHIM_MAILBOX_AT_TO_BUS_REQUEST] << 6 | (uint32_t)(block)[RAFTERSHIM_MAILBOX_AT_TO_BUS_AVAILABLE])
#define RAFTERSHIM_MAILBOX_LOOP_STATUS(block) \
    ((uint32_t)(block)[RAFTERSHIM_MAILBOX_AT_TO_LOOP_REQUEST] << 6 | (uint32_t)(block)[RAFTERSHIM_MAILBOX_AT_TO_LOOP_AVAILABLE])

/* The length in bytes that every block of a mailbox has. Takes nothing, answers the length, and is never refused. */
uint64_t raftershim_mailbox_block_len(void);

/*
 * Makes a state in the block for stores of these lengths, at this address on the bus; what the block held does not matter. On the loop the
 * address is 15 until one is assigned. Neither store is written. Answers done.
 * Refusal 1: a store has not 1 to 32768 cells, the address is above 30, or the block has not raftershim_mailbox_block_len() bytes.
 */
uint64_t raftershim_mailbox_create(uint8_t *block, uint64_t block_len, const uint16_t *to_bus, uint64_t to_bus_len, const uint16_t *to_loop,
                                   uint64_t to_loop_len, uint32_t address);

/*
 * Gives the block what create gives for the same sizes and bus address. Neither store is written. Answers done.
 * Refusal 2: the block is not a state that fits the stores.
 */
uint64_t raftershim_mailbox_reset(uint8_t *block, uint64_t block_len, const uint16_t *to_bus, uint64_t to_bus_len, const uint16_t *to_loop,
                                  uint64_t to_loop_len);

/*
 * Takes a frame from the loop. A listener leaves its data for the bus; a talker sends what waits for the loop, an end byte where a cell has
 * the end mark. Answers the one frame that goes on.
 * Refusal 2: the block is not a state that fits the stores. Refusal 3: the frame is above 2047. Refusal 4: busy, offer the frame again when
 * the bus has fetched bytes.
 */
uint64_t raftershim_mailbox_loop_frame(uint8_t *block, uint64_t block_len, uint16_t *to_bus, uint64_t to_bus_len, const uint16_t *to_loop,
                                       uint64_t to_loop_len, uint32_t frame);

/*
 * Takes a command byte from the bus, which is one that comes with ATN. Neither store is written. Answers done.
 * 32 and 64 plus our address make us listener and talker, another talk address and 95 end talker, 63 ends listener. 20, and 4 to a listener,
 * clear the way to the loop. 24 and 25 begin and end serial poll mode. 5 to a listener, then 96 to 111 or 112 to 127, sets or ends the
 * answer to a parallel poll, and 21 ends it too. Every other command does nothing.
 * Refusal 2: the block is not a state that fits the stores. Refusal 13: the command is above 127.
 */
uint64_t raftershim_mailbox_bus_command(uint8_t *block, uint64_t block_len, const uint16_t *to_bus, uint64_t to_bus_len,
                                        const uint16_t *to_loop, uint64_t to_loop_len, uint32_t command);

/*
 * Takes a data byte from the bus, with the end mark, which is EOI, unless end is 0. A listener leaves it for the loop. Where we are not
 * listener nobody keeps it. The answer is done in both cases and does not tell them apart: a byte that is handed over without the listen
 * address before it is gone, as on a real bus.
 * Refusal 2: the block is not a state that fits the stores. Refusal 4: busy, offer the byte again when the loop has fetched bytes.
 */
uint64_t raftershim_mailbox_bus_byte(uint8_t *block, uint64_t block_len, const uint16_t *to_bus, uint64_t to_bus_len, uint16_t *to_loop,
                                     uint64_t to_loop_len, uint8_t byte, uint32_t end);

/*
 * Gives the bus its next byte, if we are talker there: the oldest that waits for the bus, with its end mark; in serial poll mode the status
 * byte, once after each command and without a mark. Answers that byte, plus 256 if it has the mark, or none. Neither store is written.
 * Refusal 2: the block is not a state that fits the stores.
 */
uint64_t raftershim_mailbox_bus_fetch(uint8_t *block, uint64_t block_len, const uint16_t *to_bus, uint64_t to_bus_len,
                                      const uint16_t *to_loop, uint64_t to_loop_len);

/*
 * Takes an interface clear of the bus, which is the line IFC: we are neither talker nor listener there, and serial poll mode ends. What
 * waits stays. Answers done.
 * Refusal 2: the block is not a state that fits the stores.
 */
uint64_t raftershim_mailbox_bus_clear(uint8_t *block, uint64_t block_len, const uint16_t *to_bus, uint64_t to_bus_len,
                                      const uint16_t *to_loop, uint64_t to_loop_len);

/*
 * Shows the lines of the bus that we drive. Nothing is written. Answers the data lines that answer a parallel poll, plus 256 while SRQ is on.
 * Refusal 2: the block is not a state that fits the stores.
 */
uint64_t raftershim_mailbox_bus_lines(const uint8_t *block, uint64_t block_len, const uint16_t *to_bus, uint64_t to_bus_len,
                                      const uint16_t *to_loop, uint64_t to_loop_len);

/*
 * Shows a store: side 0 is that of the way to the bus, side 1 that of the way to the loop. Nothing is written. Answers where the longest
 * unbroken run of cells from the oldest one is: in bits 32 to 63 the place in that store where it starts, in bits 0 to 31 its length, both
 * in cells. The cells are as they stand in the buffer, so mask off the bits above the end mark, as RAFTERSHIM_MAILBOX_BYTE and
 * RAFTERSHIM_MAILBOX_END do. The answer is 0, an empty part, if nothing waits, the block is not a state that fits the stores, or the side is
 * neither. It is never refused.
 */
uint64_t raftershim_mailbox_show(const uint8_t *block, uint64_t block_len, const uint16_t *to_bus, uint64_t to_bus_len,
                                 const uint16_t *to_loop, uint64_t to_loop_len, uint32_t side);

#ifdef __cplusplus
}
#endif

#endif
