/*
 * What speed and stack share: the library, the model and calls that do nothing, each as one of three sides; the call in hand; and
 * the bytes of stack that it takes.
 */
#ifndef SIDES_H
#define SIDES_H

#include <stddef.h>
#include <stdint.h>

#include "tour.h"
#include "urqolina.h"

struct side {
    uint32_t (*fresh)(uint8_t *, size_t, uint32_t);
    uint32_t (*command)(uint8_t *, size_t, const uint8_t *, size_t, uint8_t *, size_t);
    uint32_t (*reading)(uint8_t *, size_t, uint32_t, uint32_t);
    uint32_t (*tick)(uint8_t *, size_t, uint8_t *, size_t);
};

/* What measuring a call of the third costs is taken away from what is measured. */
enum { LIBRARY, MODEL, NOTHING, SIDES };

extern const struct side sides[SIDES];

/* The table that a call is made on, with room for one that is too long by a byte. */
extern uint8_t start[URQOLINA_TABLE_SIZE + 1];

/* The call in hand: a kind of tour.h, and what it is lent. */
struct call {
    const struct side *side;
    int kind;
    const uint8_t *line;
    size_t line_size;
    uint32_t channel, contacts, card;
    size_t table_size, reply_size, pulses_size;
    uint32_t result;
};

extern struct call call;

/* Puts a call in hand, with buffers of the right sizes; the card of a fresh call is the sixteen-motor one. */
void take_up(int kind, const char *line, uint32_t channel, uint32_t contacts);

/* Copies the table that the call in hand is made on. */
void restore(void);

/* Makes the call in hand. */
void make_call(void);

/* The bytes of stack that the call in hand takes on a side, with the return address and nothing of the caller. */
uint32_t stack_of(int side);

/* Whether the painting finds a byte that is changed 1,000 bytes down, and none below it. */
int paint_holds(void);

/* Sends a line to the model, on the table that calls are made on, and gives its number. */
uint32_t send_line(const char *text);

/* Reads the switches of all channels, all open, and starts as many of them: to a target and scanning by turns. */
void set_out(uint32_t driving);

#endif
