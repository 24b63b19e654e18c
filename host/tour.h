/*
 * The tour: what a run of differ begins with, so that every run, however short, has had each number that a call can give.
 */
#ifndef TOUR_H
#define TOUR_H

#include <stdbool.h>
#include <stddef.h>
#include <stdint.h>

enum { FRESH, COMMAND, READING, TICK, CALLS };

/* A number is below this. */
#define TOUR_NUMBERS 32u

/* The numbers that each kind of call can give, number n as bit n. Another one is taken for a fault of the call. */
extern const uint32_t tour_numbers[CALLS];

/* A call that gives a number: from a fresh table, the readings, ticks and lines that come before it, and what it is lent. */
struct step {
    int kind;
    uint32_t number;
    uint32_t card; /* of the fresh table */
    const char *before; /* with ; between them; readings and ticks are written as in a script, S x n and T n; each is accepted */
    uint32_t wanted; /* the card of a fresh call */
    const char *line; /* of a command */
    uint32_t channel, contacts; /* of a reading */
    int table, reply, pulses; /* by how much the size of a buffer is off */
    bool damaged; /* whether the table is not sound: channel 0 is at -2,147,483,648, where no motor can be */
    uint32_t wrong; /* channels that the busy set has wrong, channel c as bit c; with one of them the table is not sound either */
    uint32_t at; /* a byte of the table, where this is not 0, and what it is made; the table may be sound with it */
    uint8_t byte;
};

/* The most bytes that stand before a step, with a zero after them. */
#define TOUR_BEFORE_MOST 300u

extern const struct step tour[];
extern const size_t tour_size;

/* Damages a table, where a step says so. */
void tour_damage(const struct step *s, uint8_t *table);

#endif
