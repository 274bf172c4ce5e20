/*
 * Raftershim: a software HP-IL/RS-232 interface, one device on a loop, as C functions.
 *
 * The bridge keeps nothing between calls. The caller lends three buffers at every call, each as a pointer and a length: the block,
 * which holds the state (raftershim_block_len() bytes), the receive store (line to loop), of cells with its length in cells, and the
 * transmit store (loop to line), of bytes. They are the same three at every call, untouched in between, and they do not overlap. A pointer
 * is not null and is good for its length, and that of the receive store is aligned for 16 bits. One call at a time may use a set of
 * buffers. A state knows its stores by their lengths alone: a store of another bridge that has the same length is not noticed.
 *
 * A cell is 16 bits: bits 0 to 7 the byte, bit 8 the mark that a break follows it. The bits above are written as 0 and do not count when a
 * cell is read. The length of the receive store is its number of cells, and not its sizeof, which is twice as much.
 *
 * A length has 64 bits on every target, also where a pointer has 32: that is what the proved code takes, so no length is ever cut.
 *
 * The first byte of a block is the version of what the block means, which is 3. A block with another first byte is not a state: every call
 * but create is refused by 2, and showing answers an empty part. So is a block of version 2, whose receive store had bytes. What the other
 * bytes are stands below: a caller may read them and writes none.
 *
 * Every function but raftershim_block_len and the two that show a store answers one number of 64 bits:
 *
 *   bits 0 to 15    the value: a line byte, a frame or the number of a refusal, and 0 where there is none
 *   bits 16 to 23   the kind: 0 done, 1 none, 2 a line byte, 3 a frame, 4 refused
 *   bits 24 to 31   reserved: 0 for now
 *   bits 32 to 47   the room, 0 to 32768: how many cells or bytes more a store can hold after the call
 *   bits 48 to 63   reserved: 0 for now
 *
 * A reader masks off what it does not read, as RAFTERSHIM_KIND, RAFTERSHIM_VALUE and RAFTERSHIM_ROOM do.
 *
 * Two functions tell the room, whatever the byte or the frame did: raftershim_line_byte that of the receive store, and
 * raftershim_loop_frame that of the transmit store. A refusal is its number alone and has 0 there, and so has every other function that
 * answers such a number. RAFTERSHIM_ROOM is not for the two that show a store.
 *
 * A frame is 11 bits: three control bits above eight data bits, control * 256 + data.
 *
 * The refusals:
 *
 *   1   create: a size is broken, or the block has the wrong length
 *   2   any other call but showing: the block is not a state, or the state does not fit the lent stores
 *   3   a loop frame above 2047
 *   4   busy: we are listener, the frame is data, and the transmit store lacks room for what it adds
 *   5   register write: a number that is not carried
 *   6   register write: a control value above 15, or a character above 255
 *   7   register write: a control bit that is not carried
 *   8   register write: the go and stop characters would be equal
 *   10  held bytes: R10, C00 or C01 is written while the receive store holds at least one cell
 *   12  not next: a line byte is taken that is not the next one, or nothing is next
 *
 * They are checked in the order of their numbers. A call that is refused leaves the block and both stores as they were.
 */
#ifndef RAFTERSHIM_H
#define RAFTERSHIM_H

#include <stdint.h>

#ifdef __cplusplus
extern "C" {
#endif

/* The kind, the value and the room of an answer, whatever its other bits are. */
#define RAFTERSHIM_KIND(answer) ((uint32_t)((answer) >> 16) & 0xFFu)
#define RAFTERSHIM_VALUE(answer) ((uint32_t)(answer) & 0xFFFFu)
#define RAFTERSHIM_ROOM(answer) ((uint32_t)((answer) >> 32) & 0xFFFFu)

#define RAFTERSHIM_DONE 0u
#define RAFTERSHIM_NONE 1u
#define RAFTERSHIM_BYTE 2u
#define RAFTERSHIM_FRAME 3u
#define RAFTERSHIM_REFUSED 4u

/*
 * The three refusals that pass. Busy: the frame is offered again when bytes for the line were taken. Held bytes: the register is written
 * again when RAFTERSHIM_RECEIVE_HELD is 0, that is when all has been read. Bytes that wait for more are not read: a break decides them.
 * Not next: raftershim_ask_line_byte says which byte is next now, if any is.
 */
#define RAFTERSHIM_BUSY 4u
#define RAFTERSHIM_HELD_BYTES 10u
#define RAFTERSHIM_NOT_NEXT 12u

/* The start and the length of a part that was shown: in cells of the receive store, in bytes of the transmit store. */
#define RAFTERSHIM_START(answer) ((uint32_t)((answer) >> 32))
#define RAFTERSHIM_LENGTH(answer) ((uint32_t)((answer) & 0xFFFFFFFFu))

/* The byte of a cell of the receive store, and its mark: 1 if a break follows the byte, else 0. */
#define RAFTERSHIM_CELL_BYTE(cell) ((uint32_t)(cell) & 0xFFu)
#define RAFTERSHIM_CELL_BREAK(cell) ((uint32_t)(cell) >> 8 & 1u)

/*
 * The layout of a block, version 3: where each field starts, and how it is packed. A number of two or four bytes has its low byte first;
 * a flag is 1 or 0. A field means what it says while the block is a state, which is after create, and after every later call.
 */
#define RAFTERSHIM_VERSION 3u
#define RAFTERSHIM_BLOCK_LEN 56u

#define RAFTERSHIM_AT_VERSION 0u /* byte: the version */
#define RAFTERSHIM_AT_MARGIN 1u /* two: the margin */
#define RAFTERSHIM_AT_RECEIVE_LEN 3u /* two: the length of the receive store, in cells */
#define RAFTERSHIM_AT_RECEIVE_OLDEST 5u /* two: the place of its oldest cell */
#define RAFTERSHIM_AT_RECEIVE_HELD 7u /* two: how many cells it holds */
#define RAFTERSHIM_AT_TRANSMIT_LEN 9u /* two: the length of the transmit store, in bytes */
#define RAFTERSHIM_AT_TRANSMIT_OLDEST 11u /* two: the place of its oldest byte */
#define RAFTERSHIM_AT_TRANSMIT_HELD 13u /* two: how many bytes it holds */
#define RAFTERSHIM_AT_STORED 15u /* four: bytes stored in the receive store */
#define RAFTERSHIM_AT_LOST 19u /* four: bytes lost because it was full */
#define RAFTERSHIM_AT_SENT 23u /* four: data frames sent from it */
#define RAFTERSHIM_AT_ADDRESS 27u /* byte: our address, 31 when unassigned */
#define RAFTERSHIM_AT_TALKER 28u /* byte: one of the talker phases below */
#define RAFTERSHIM_AT_LISTENER 29u /* flag: we are listener */
#define RAFTERSHIM_AT_UNDER_WAY 30u /* two: our frame under way, 0 when there is none */
#define RAFTERSHIM_AT_FINISHING 32u /* flag: sending ends after the frame under way */
#define RAFTERSHIM_AT_R00 33u /* byte: register R00 */
#define RAFTERSHIM_AT_R01 34u /* byte: register R01 */
#define RAFTERSHIM_AT_R02 35u /* byte: register R02 */
#define RAFTERSHIM_AT_R10 36u /* byte: register R10 */
#define RAFTERSHIM_AT_R11 37u /* byte: register R11 */
#define RAFTERSHIM_AT_C00 38u /* byte: register C00 */
#define RAFTERSHIM_AT_C01 39u /* byte: register C01 */
#define RAFTERSHIM_AT_C02 40u /* byte: register C02 */
#define RAFTERSHIM_AT_C03 41u /* byte: register C03 */
#define RAFTERSHIM_AT_C04 42u /* byte: register C04 */
#define RAFTERSHIM_AT_C05 43u /* byte: register C05 */
#define RAFTERSHIM_AT_HOLDING 44u /* flag: we hold the line off */
#define RAFTERSHIM_AT_FORBIDDEN 45u /* flag: the other end forbids our sending */
#define RAFTERSHIM_AT_STOP_SENT_LAST 46u /* flag: stop was the last of go and stop that we sent */
#define RAFTERSHIM_AT_SEEN_BREAK 47u /* flag: status bit 4 */
#define RAFTERSHIM_AT_SEEN_OVERRUN 48u /* flag: status bit 5: a byte was lost */
#define RAFTERSHIM_AT_SEEN_KEY 49u /* flag: status bit 7 */
#define RAFTERSHIM_AT_AGAIN_BREAK 50u /* flag: a break since the last status byte was sent */
#define RAFTERSHIM_AT_AGAIN_OVERRUN 51u /* flag: a loss since then */
#define RAFTERSHIM_AT_AGAIN_KEY 52u /* flag: a key press since then */
#define RAFTERSHIM_AT_REQUEST 53u /* flag: a service request has begun and not ended */
#define RAFTERSHIM_AT_REMOTE_ENABLED 54u /* flag: remote is enabled */
#define RAFTERSHIM_AT_REMOTE 55u /* flag: we are remote */

/* The talker phases. */
#define RAFTERSHIM_TALKER_NOT 0u
#define RAFTERSHIM_TALKER_ADDRESSED 1u
#define RAFTERSHIM_TALKER_DATA 2u
#define RAFTERSHIM_TALKER_STATUS 3u

/* Reads a field of two or of four bytes at its place. */
#define RAFTERSHIM_TWO(block, at) ((uint32_t)(block)[at] | (uint32_t)(block)[(at) + 1u] << 8)
#define RAFTERSHIM_FOUR(block, at) (RAFTERSHIM_TWO(block, at) | RAFTERSHIM_TWO(block, (at) + 2u) << 16)

/*
 * The three counts since create or reset, which start again at 0 after 4294967295: bytes stored in the receive store, bytes lost because
 * it was full, and data frames sent from it. A byte is missing somewhere if lost has changed; no status byte clears it.
 */
#define RAFTERSHIM_STORED(block) RAFTERSHIM_FOUR(block, RAFTERSHIM_AT_STORED)
#define RAFTERSHIM_LOST(block) RAFTERSHIM_FOUR(block, RAFTERSHIM_AT_LOST)
#define RAFTERSHIM_SENT(block) RAFTERSHIM_FOUR(block, RAFTERSHIM_AT_SENT)

/* How many cells the receive store holds, which are as many bytes, and how many bytes the transmit store holds. */
#define RAFTERSHIM_RECEIVE_HELD(block) RAFTERSHIM_TWO(block, RAFTERSHIM_AT_RECEIVE_HELD)
#define RAFTERSHIM_TRANSMIT_HELD(block) RAFTERSHIM_TWO(block, RAFTERSHIM_AT_TRANSMIT_HELD)

/* The bits of the status byte. */
#define RAFTERSHIM_STATUS_TRANSMIT_EMPTY 1u
#define RAFTERSHIM_STATUS_TRANSMIT_NOT_FULL 2u
#define RAFTERSHIM_STATUS_RECEIVE_NOT_EMPTY 4u
#define RAFTERSHIM_STATUS_RECEIVE_FULL 8u
#define RAFTERSHIM_STATUS_BREAK 16u
#define RAFTERSHIM_STATUS_OVERRUN 32u
#define RAFTERSHIM_STATUS_SERVICE 64u
#define RAFTERSHIM_STATUS_KEY 128u

/* The status byte that the block would send now. Reading it here sends nothing, ends no request and clears no bit. */
static inline uint32_t raftershim_status(const uint8_t *block) {
    uint32_t rx = RAFTERSHIM_RECEIVE_HELD(block), tx = RAFTERSHIM_TRANSMIT_HELD(block);
    return (tx == 0u ? RAFTERSHIM_STATUS_TRANSMIT_EMPTY : 0u) |
           (tx != RAFTERSHIM_TWO(block, RAFTERSHIM_AT_TRANSMIT_LEN) ? RAFTERSHIM_STATUS_TRANSMIT_NOT_FULL : 0u) |
           (rx != 0u ? RAFTERSHIM_STATUS_RECEIVE_NOT_EMPTY : 0u) |
           (rx == RAFTERSHIM_TWO(block, RAFTERSHIM_AT_RECEIVE_LEN) ? RAFTERSHIM_STATUS_RECEIVE_FULL : 0u) |
           (block[RAFTERSHIM_AT_SEEN_BREAK] ? RAFTERSHIM_STATUS_BREAK : 0u) |
           (block[RAFTERSHIM_AT_SEEN_OVERRUN] ? RAFTERSHIM_STATUS_OVERRUN : 0u) |
           (block[RAFTERSHIM_AT_REQUEST] && (block[RAFTERSHIM_AT_R00] & 8u) ? RAFTERSHIM_STATUS_SERVICE : 0u) |
           (block[RAFTERSHIM_AT_SEEN_KEY] ? RAFTERSHIM_STATUS_KEY : 0u);
}

/* The length in bytes that every block has. Takes nothing, answers the length, and is never refused. */
uint64_t raftershim_block_len(void);

/*
 * Makes a state in the block for stores of these lengths, with this margin; what the block held does not matter. Neither store is
 * written. Answers done.
 * Refusal 1: the margin is not 1 to 1024, the receive store has not 2 * margin + 2 to 32768 cells, the transmit store has not 3 to
 * 32768 bytes, or the block has not raftershim_block_len() bytes.
 */
uint64_t raftershim_create(uint8_t *block, uint64_t block_len, const uint16_t *rx, uint64_t rx_len, const uint8_t *tx,
                           uint64_t tx_len, uint32_t margin);

/*
 * Gives the block what create gives for the same sizes and margin. Neither store is written. Answers done.
 * Refusal 2: the block is not a state that fits the stores.
 */
uint64_t raftershim_reset(uint8_t *block, uint64_t block_len, const uint16_t *rx, uint64_t rx_len, const uint8_t *tx, uint64_t tx_len);

/*
 * Writes a register: numbers 0 to 12 are R00 to R12, 16 to 21 are C00 to C05. Neither store is written. Answers done.
 * Refusal 2: the block is not a state that fits the stores. Refusal 5: the number is not carried. Refusal 6: the value is above 15 for
 * a control register, or above 255 for a character. Refusal 7: the value has a control bit that is not carried. Refusal 8: the go and
 * stop characters would be equal. Refusal 10: the register is R10, C00 or C01, and the receive store holds at least one cell.
 * So each byte is read by the R10, C00 and C01 that were in force when it was stored. The value does not matter: one that the register
 * has already is refused too, and so is a change of R10 bit 2 alone, and so are C00 and C01 while R10 bit 3 is off. Bytes that wait to be
 * decided are held, and so is an end of line that no send has removed yet; a frame under way is not. What waits is decided by the bytes
 * that follow, of which the last wait in their turn unless they are C00 and C01, or by a break, after which all can be read. A reset and
 * a device clear throw it away.
 */
uint64_t raftershim_write_register(uint8_t *block, uint64_t block_len, const uint16_t *rx, uint64_t rx_len, const uint8_t *tx,
                                   uint64_t tx_len, uint32_t number, uint32_t value);

/*
 * Takes a byte from the line: go and stop permit or forbid our sending while the protocol is on, any other byte is stored in a cell of
 * the receive store without a mark, or lost if that is full. Answers done, and the room of the receive store in cells: go and stop leave it
 * as it is, and after a byte that is lost it is 0.
 * Refusal 2: the block is not a state that fits the stores.
 */
uint64_t raftershim_line_byte(uint8_t *block, uint64_t block_len, uint16_t *rx, uint64_t rx_len, const uint8_t *tx, uint64_t tx_len,
                              uint8_t byte);

/*
 * Takes a break on the line. Answers done. If the receive store holds anything, its newest cell becomes its byte with the mark, 256 + byte,
 * and nothing else in a store is written. If it holds nothing, no store is written. A mark takes no room, and several breaks at one place
 * are one mark. The break is told by the status byte in any case.
 * A break parts the ends of lines: with R10 bit 3 on, C00 before it and C01 after it are no end of line, and a byte before it gets no end of
 * line that comes after it. What waited to be decided waits no longer: each such byte becomes a data frame. With R10 bit 3 off a mark
 * means nothing.
 * Refusal 2: the block is not a state that fits the stores.
 */
uint64_t raftershim_break(uint8_t *block, uint64_t block_len, uint16_t *rx, uint64_t rx_len, const uint8_t *tx, uint64_t tx_len);

/*
 * Takes a press of the MSRQ key. Answers done.
 * Refusal 2: the block is not a state that fits the stores.
 */
uint64_t raftershim_key(uint8_t *block, uint64_t block_len, const uint16_t *rx, uint64_t rx_len, const uint8_t *tx, uint64_t tx_len);

/*
 * Says which line byte is next: our own go or stop if one is owed, else the oldest byte of the transmit store, unless the other end forbids
 * our sending. Answers that line byte, or none. Nothing changes, however often it is asked: the byte is next until it is taken, or until
 * another call makes another byte next.
 * Refusal 2: the block is not a state that fits the stores.
 */
uint64_t raftershim_ask_line_byte(const uint8_t *block, uint64_t block_len, const uint16_t *rx, uint64_t rx_len, const uint8_t *tx,
                                  uint64_t tx_len);

/*
 * Takes the line byte that is named: if it is the next one it is gone, and any other is refused. Our own go or stop counts as sent from
 * then on, and a byte of the transmit store leaves that store. If a go or stop is owed and the oldest byte held is the same byte, the go
 * or stop is what goes, and the byte stays. Neither store is written. Answers done.
 * Refusal 2: the block is not a state that fits the stores. Refusal 12: nothing is next, or the byte is not the next one.
 *
 * So ask, send the byte, and take it when the port has it. If the port fails, take nothing: the byte is still there, and the next ask says
 * it again. If nobody knows whether the byte went out, not taking it sends it twice at worst, and taking it may lose it. A take right
 * after its ask is never refused.
 * Make no other call on these buffers between the ask, the sending and the take. Such a call can make a go or stop due, no longer due or
 * another character, it can forbid our sending, and a device clear or a reset throws away what is held. The take is then refused, though
 * its byte is on the line already, and nothing is recorded. So a byte of the transmit store goes out a second time. A stop that was sent is
 * not followed by a go, and the meter stays silent for good. A go that was sent is not followed by the stop that has become due, and bytes
 * of the meter may be lost. And a take knows a byte by its value alone: where an equal byte has become next in between, that one is gone,
 * though it was never sent.
 */
uint64_t raftershim_take_line_byte(uint8_t *block, uint64_t block_len, const uint16_t *rx, uint64_t rx_len, const uint8_t *tx,
                                   uint64_t tx_len, uint8_t byte);

/*
 * Takes a frame from the loop. Answers the one frame that goes on, and the room of the transmit store: whichever frame it is, whether or
 * not a byte was stored. After a device clear it is the whole store. What a send frees in the receive store is not in it.
 * Refusal 2: the block is not a state that fits the stores. Refusal 3: the frame is above 2047. Refusal 4: busy, offer the frame again
 * when bytes for the line were taken.
 */
uint64_t raftershim_loop_frame(uint8_t *block, uint64_t block_len, const uint16_t *rx, uint64_t rx_len, uint8_t *tx, uint64_t tx_len,
                               uint32_t frame);

/*
 * Shows the receive store. Nothing is written. Answers where the longest unbroken run of cells from the oldest one is: in bits 32 to 63 the
 * place in that store where it starts, in bits 0 to 31 its length, both in cells. The cells are as they stand in the buffer, so mask off the
 * bits above the mark, as RAFTERSHIM_CELL_BYTE and RAFTERSHIM_CELL_BREAK do. The answer is 0, an empty part, if nothing is held or the block
 * is not a state that fits the stores. It is never refused.
 */
uint64_t raftershim_show_receive(const uint8_t *block, uint64_t block_len, const uint16_t *rx, uint64_t rx_len, const uint8_t *tx,
                                 uint64_t tx_len);

/* Shows the transmit store in the same way, in bytes. */
uint64_t raftershim_show_transmit(const uint8_t *block, uint64_t block_len, const uint16_t *rx, uint64_t rx_len, const uint8_t *tx,
                                  uint64_t tx_len);

#ifdef __cplusplus
}
#endif

#endif
