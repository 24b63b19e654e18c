/*
 * The rows: calls on tables, and with sizes and numbers, that no script of bench can have, each with what it must give.
 */
#ifndef ROWS_H
#define ROWS_H

#include <stddef.h>
#include <stdint.h>

#include "tour.h"

/* What a row is besides a call of tour.h: each call but fresh, or no call, but the sentence that the rows after it are of. */
enum { EACH = CALLS, RULE };

/*
 * Bytes are written OFFSET=BYTES with ; between. An offset is H and a byte of the head, H3, or a channel, a dot and a byte of its
 * record, B.32; the bytes are in hex, from there on. *=FF is all of the table.
 */
struct row {
    int kind;
    uint32_t number;
    const char *rule;   /* of a RULE */
    uint32_t card;      /* of the fresh table that the row begins with */
    const char *before; /* what is done on it, with ; between: lines, and S x n and T n as in a script; each is accepted */
    const char *set;    /* bytes that are then set by hand; with | between, a table for each */
    uint32_t wanted;    /* the card of a fresh call */
    const char *line;   /* of a command; of line_size bytes, where that is not 0 */
    size_t line_size;
    uint32_t channel, contacts; /* of a reading */
    int table, reply, pulses;   /* by how much the size of a buffer is off */
    const char *said;    /* the reply; none, where it is not given */
    const char *leaves;  /* the bytes in which the table after the call is not the fresh one of the sixteen-motor card */
    const char *counts;  /* of a tick: the pulses of each channel that gets some, 0=+1;F=-8 */
};

extern const struct row rows[];
extern const size_t rows_size;

#endif
