/*
 * Document 01 as amended by §1 to §7 of document 02, in plain C: the pulse controller of sixteen channels, all of which
 * may run, or any four, as the card is. It is written from the documents alone, to be compared with the proved library
 * call by call, and to measure the library's speed beside.
 *
 * The four calls take the library's buffers and answer its numbers. The host sees to it that every pointer is to as
 * many bytes as the length beside it says and is never null, that the buffers of one call do not overlap, and that one
 * call at a time runs on one table. All else is judged by the calls: any bytes, any lengths, any numbers.
 *
 * After every call that answers other than 5 or 6, bytes 4 and 5 of the table hold the busy set: channel 0 is bit 0 of
 * byte 4, channel F bit 7 of byte 5. Byte 6 holds the card. The host may read them there, and write them never.
 */
#ifndef MODEL_H
#define MODEL_H

#include <stddef.h>
#include <stdint.h>

/* Makes a fresh table of a card, 0 sixteen or 1 four. 0, or 5 for a table that is not 1,088 bytes or a card over 1. */
uint32_t model_fresh(uint8_t *table, size_t table_size, uint32_t card);

/* Takes one command line. The number, 0 to 3 or 5 to 14, plus 256 times the length of the reply. */
uint32_t model_command(uint8_t *table, size_t table_size, const uint8_t *line, size_t line_size, uint8_t *reply,
                       size_t reply_size);

/* Takes one reading of a channel's switches; until the first, the contacts are unknown. 0, 5 or 6. */
uint32_t model_reading(uint8_t *table, size_t table_size, uint32_t channel, uint32_t contacts);

/* Takes one tick. 0, 5 or 6; at 0 the pulse buffer holds sixteen signed counts. */
uint32_t model_tick(uint8_t *table, size_t table_size, uint8_t *pulses, size_t pulses_size);

#endif
