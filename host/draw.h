/*
 * What a run of differ is made of: numbers, tables and lines, each drawn in turn, so that all of them follow from the seed.
 */
#ifndef DRAW_H
#define DRAW_H

#include <stdbool.h>
#include <stddef.h>
#include <stdint.h>

struct draw {
    uint64_t state;
};

/* The most bytes that draw_line writes. */
#define DRAW_LINE_MOST 320u

/* A number below n, which is not 0. */
uint32_t draw_below(struct draw *d, uint32_t n);

/* True once in n times. */
bool draw_once_in(struct draw *d, uint32_t n);

/* Any 32 bits, often at or beside an end of a range. */
uint32_t draw_word(struct draw *d);

/* Fills bytes with any values. */
void draw_bytes(struct draw *d, uint8_t *bytes, size_t size);

/* The set of busy channels that the records of a table make, channel c as bit c: what bytes 4 and 5 of its head must hold. */
uint32_t draw_busy_set(const uint8_t *table);

/* A card for fresh: one of the two, or once in three times a number that is none. */
uint32_t draw_card(struct draw *d);

/* A table of either card that is sound by construction, most of its motors in a rare state. */
void draw_sound_table(struct draw *d, uint8_t *table);

/* Damages one field or one byte of a table, once in six times its busy set, once in ten its card. What comes of it may
   still be sound. */
void draw_damage(struct draw *d, uint8_t *table);

/* A line for a table: mostly one with a form, often at the end of a range or beside the present position. Gives its
   length. */
size_t draw_line(struct draw *d, const uint8_t *table, uint8_t *line);

/* Changes, adds or takes away one byte of a line, or draws it anew. Gives its length. */
size_t draw_line_damage(struct draw *d, uint8_t *line, size_t size);

#endif
