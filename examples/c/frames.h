/* The frames that a controller names, control and data in one number; our address is 1. */
#ifndef FRAMES_H
#define FRAMES_H

#define FRAME(control, data) ((control) << 8 | (data))
#define ASSIGN_1 FRAME(5u, 129u)
#define TALK_1 FRAME(4u, 65u)
#define LISTEN_1 FRAME(4u, 33u)
#define UNTALK FRAME(4u, 95u)
#define UNLISTEN FRAME(4u, 63u)
#define INTERFACE_CLEAR FRAME(4u, 144u)
#define DEVICE_CLEAR FRAME(4u, 20u)
#define SELECTED_DEVICE_CLEAR FRAME(4u, 4u)
#define SEND_DATA FRAME(5u, 96u)
#define SEND_STATUS FRAME(5u, 97u)
#define NOT_READY FRAME(5u, 66u)
#define END_OF_TRANSMISSION FRAME(5u, 64u)
#define TRANSMISSION_ERROR FRAME(5u, 65u)
#define IS_DATA(frame) ((frame) < FRAME(4u, 0u))
#define IS_END_BYTE(frame) (IS_DATA(frame) && ((frame) & FRAME(2u, 0u)))
/* Whether a frame is a device clear for the bridge of this block: 4,20 is for all, 4,4 for listeners. */
#define IS_CLEAR(frame, block) ((frame) == DEVICE_CLEAR || ((frame) == SELECTED_DEVICE_CLEAR && (block)[RAFTERSHIM_AT_LISTENER]))

/* Registers, as the words of raftershim_write_register: CR LF from the line makes an end byte; the line is never held off. */
#define LINE_ENDS 10u, 8u
#define NO_PROTOCOL 11u, 0u

#endif
