/* What the phone of the emulated board goes by: how many bytes have come from the line. */
#ifndef PHONE_H
#define PHONE_H

#include <stdint.h>

extern uint32_t line_came;

#endif
