/*
 * rows: makes the calls of the rows (rowlist.c) on the library and on the model, and holds each of the two to what the row says: the
 * number, the reply, and where they are stated the pulses and every byte of the table. At 5 and 6 no byte of any buffer may change, and
 * no call changes one past a reply or past the end of a buffer. Prints how many rows passed; or the first calls that did not, with the
 * table that each was made on, and ends with status 1.
 *
 * What the rows say was worked out from the documents, so that a fault which library and model have alike is found here.
 */
#include "rows.h"

#include <stdbool.h>
#include <stdio.h>
#include <stdlib.h>
#include <string.h>

#include "sides.h"

enum { LENT = 0xaa, HEAD = 64, RECORD = 64, TABLE_AREA = 1200, AREA = 100, TEXT_MOST = 400, SHOWN = 10 };

static const char *const side_names[NOTHING] = {"the library", "the model"};
static const char *const call_names[CALLS] = {"fresh", "command", "reading", "tick"};

/* Document 01's fresh record; all bytes after these are zero. */
static const uint8_t fresh_record[RECORD] = {
    0,    0,    0,    0,                            /* position 0 */
    0x40, 0x42, 0x0f, 0,    0xc0, 0xbd, 0xf0, 0xff, /* limits +1,000,000 and -1,000,000 */
    0xe8, 0x03, 0,    0,    0x20, 0x03, 0,    0,    /* HSPD 1000, MSPD 800 */
    0x32, 0,    0,    0,                            /* LSPD 50 */
    1,    0x70, 0,    1,    1,    0,    0};         /* M, SETLS 01110000, contacts 0, SETMT 1100 */

/* What a side is lent, each buffer with bytes after it that no call may touch; as it is, and as it was before the call. */
static struct buffers {
    uint8_t table[TABLE_AREA], reply[AREA], pulses[AREA];
} now, old;

/* The row in hand: the sentence that it is of, the bytes that are set, the call and the side; and what was found wrong. */
static struct {
    const struct row *row;
    const char *rule, *set;
    int kind, side;
    char wrong[TEXT_MOST];
} hand;

static uint32_t tables, calls, failures;

/* A row that can't be read is a fault of the list. */
static _Noreturn void bad_row(const char *text)
{
    printf("rows: this can't be read: %s\n", text);
    exit(2);
}

static const char *text_of(const char *text)
{
    return text != NULL ? text : "";
}

/* Copies a text, to be cut into parts. */
static char *copied(const char *text)
{
    char *copy = malloc(strlen(text) + 1);
    if (copy == NULL)
        bad_row(text);
    return strcpy(copy, text);
}

/* The first part of what is left of a text, up to a mark; the rest is left. */
static char *next_part(char **left, char mark)
{
    char *part = *left, *end = part == NULL ? NULL : strchr(part, mark);
    if (part == NULL || *part == 0)
        return NULL;
    *left = end == NULL ? NULL : end + 1;
    if (end != NULL)
        *end = 0;
    return part + strspn(part, " ");
}

static unsigned hex_digit(char digit)
{
    const char digits[] = "0123456789ABCDEF", *found = strchr(digits, digit);
    if (digit == 0 || found == NULL)
        bad_row("a hex digit in capitals is wanted");
    return (unsigned)(found - digits);
}

/* Sets the bytes of one OFFSET=BYTES. */
static void set_part(uint8_t *table, const char *part)
{
    char *at;
    if (strncmp(part, "*=", 2) == 0) {
        memset(table, (int)(hex_digit(part[2]) * 16 + hex_digit(part[3])), URQOLINA_TABLE_SIZE);
        return;
    }
    bool head = *part == 'H';
    size_t place = head ? 0 : HEAD + RECORD * hex_digit(*part);
    place += strtoul(part + (head ? 1 : 2), &at, 10);
    if (*at != '=' || (!head && part[1] != '.'))
        bad_row(part);
    for (at++; *at != 0; at += 2) {
        at += strspn(at, " ");
        if (*at == 0)
            break;
        if (place >= URQOLINA_TABLE_SIZE)
            bad_row(part);
        table[place++] = (uint8_t)(hex_digit(at[0]) * 16 + hex_digit(at[1]));
    }
}

static void set_bytes(uint8_t *table, const char *text)
{
    char *copy = copied(text), *left = copy;
    for (char *part = next_part(&left, ';'); part != NULL; part = next_part(&left, ';'))
        set_part(table, part);
    free(copy);
}

/* The fresh table of the sixteen-motor card, but for some bytes. */
static void make_expected(uint8_t *table, const char *but)
{
    memset(table, 0, URQOLINA_TABLE_SIZE);
    for (uint32_t c = 0; c < URQOLINA_CHANNELS; c++)
        memcpy(table + HEAD + RECORD * c, fresh_record, RECORD);
    set_bytes(table, but);
}

static uint32_t send(const char *line)
{
    uint8_t reply[URQOLINA_REPLY_SIZE];
    return URQOLINA_NUMBER(sides[hand.side].command(now.table, URQOLINA_TABLE_SIZE, (const uint8_t *)line, strlen(line), reply, sizeof reply));
}

/* Makes the ticks before a row; gives the last one's number. */
static uint32_t pass(unsigned long ticks)
{
    uint8_t pulses[URQOLINA_PULSES_SIZE];
    uint32_t number = URQOLINA_OK;
    for (unsigned long k = 0; k < ticks; k++)
        number |= sides[hand.side].tick(now.table, URQOLINA_TABLE_SIZE, pulses, sizeof pulses);
    return number;
}

/* One thing that is done before a row: a reading, ticks or a line. */
static uint32_t do_step(const char *step)
{
    if (strncmp(step, "S ", 2) == 0)
        return sides[hand.side].reading(now.table, URQOLINA_TABLE_SIZE, hex_digit(step[2]), hex_digit(step[4]));
    if (strncmp(step, "T ", 2) == 0)
        return pass(strtoul(step + 2, NULL, 10));
    return send(step);
}

/* Makes the table of the row in hand, in buffers that are full of a known byte. Says where a step is not accepted. */
static bool make_table(void)
{
    bool good = true;
    memset(&now, LENT, sizeof now);
    if (sides[hand.side].fresh(now.table, URQOLINA_TABLE_SIZE, hand.row->card) != URQOLINA_OK) {
        snprintf(hand.wrong, sizeof hand.wrong, "the fresh table is refused");
        return false;
    }
    char *copy = copied(text_of(hand.row->before)), *left = copy;
    for (char *step = next_part(&left, ';'); step != NULL && good; step = next_part(&left, ';')) {
        uint32_t number = do_step(step);
        good = number == URQOLINA_OK;
        if (!good)
            snprintf(hand.wrong, sizeof hand.wrong, "before it, %s gives %u", step, number);
    }
    free(copy);
    set_bytes(now.table, hand.set);
    return good;
}

static size_t sized(uint32_t right, int off)
{
    return (size_t)((int)right + off);
}

/* Makes the call; where the row is of each call, a line, a reading and a tick that every sound table takes. */
static uint32_t make_row_call(void)
{
    const struct row *r = hand.row;
    const struct side *s = &sides[hand.side];
    const char *line = r->kind == EACH ? "BSY?" : text_of(r->line);
    size_t table_size = sized(URQOLINA_TABLE_SIZE, r->table), line_size = r->line_size != 0 ? r->line_size : strlen(line);
    switch (hand.kind) {
    case FRESH: return s->fresh(now.table, table_size, r->wanted);
    case COMMAND:
        return s->command(now.table, table_size, (const uint8_t *)line, line_size, now.reply, sized(URQOLINA_REPLY_SIZE, r->reply));
    case READING: return s->reading(now.table, table_size, r->kind == EACH ? 15 : r->channel, r->contacts);
    default: return s->tick(now.table, table_size, now.pulses, sized(URQOLINA_PULSES_SIZE, r->pulses));
    }
}

/* Whether two buffers are alike from a place on; says where they are not. */
static bool alike(const uint8_t *one, const uint8_t *other, size_t from, size_t end, const char *what)
{
    for (size_t k = from; k < end; k++)
        if (one[k] != other[k]) {
            snprintf(hand.wrong, sizeof hand.wrong, "byte %zu of the %s is %02X, not %02X", k, what, one[k], other[k]);
            return false;
        }
    return true;
}

/* Whether no byte was changed but in the table and in the pulses, and in the front of the reply. */
static bool kept(size_t table, size_t reply, size_t pulses)
{
    return alike(now.table, old.table, table, TABLE_AREA, "table") && alike(now.reply, old.reply, reply, AREA, "reply")
           && alike(now.pulses, old.pulses, pulses, AREA, "pulses");
}

static bool right_reply(uint32_t result)
{
    const char *said = text_of(hand.row->said);
    if (URQOLINA_REPLY_LENGTH(result) == strlen(said) && memcmp(now.reply, said, strlen(said)) == 0)
        return true;
    snprintf(hand.wrong, sizeof hand.wrong, "the reply is '%.*s', not '%s'", (int)(URQOLINA_REPLY_LENGTH(result) % AREA),
             (const char *)now.reply, said);
    return false;
}

static bool right_counts(void)
{
    uint8_t expected[URQOLINA_PULSES_SIZE] = {0};
    char *copy = copied(hand.row->counts), *left = copy;
    for (char *part = next_part(&left, ';'); part != NULL; part = next_part(&left, ';')) {
        uint32_t count = (uint32_t)strtol(part + 2, NULL, 10);
        for (unsigned k = 0; k < 4; k++)
            expected[4 * hex_digit(*part) + k] = (uint8_t)(count >> 8 * k);
    }
    free(copy);
    return alike(now.pulses, expected, 0, sizeof expected, "pulses");
}

static bool right_table(void)
{
    uint8_t expected[URQOLINA_TABLE_SIZE];
    make_expected(expected, hand.row->leaves);
    return alike(now.table, expected, 0, sizeof expected, "table");
}

/* Whether the call in hand gave what its row says. */
static bool is_right(uint32_t result)
{
    const struct row *r = hand.row;
    bool nothing = r->number == URQOLINA_WRONG_SIZE || r->number == URQOLINA_NOT_SOUND, one = r->kind != EACH;
    size_t reply = URQOLINA_REPLY_LENGTH(result);
    if (URQOLINA_NUMBER(result) != r->number || (reply != 0 && (nothing || hand.kind != COMMAND || reply > URQOLINA_REPLY_SIZE))) {
        snprintf(hand.wrong, sizeof hand.wrong, "the result is %u + 256 * %zu, and the number is to be %u", URQOLINA_NUMBER(result), reply,
                 r->number);
        return false;
    }
    if (nothing)
        return kept(0, 0, 0);
    return kept(URQOLINA_TABLE_SIZE, reply, hand.kind == TICK ? URQOLINA_PULSES_SIZE : 0)
           && (!one || hand.kind != COMMAND || right_reply(result)) && (r->counts == NULL || right_counts())
           && (r->leaves == NULL || right_table());
}

static const char *shown(const char *text)
{
    return *text != 0 ? text : "nothing";
}

/* The first calls that fail are shown, with all that they were made on. */
static void show_failure(void)
{
    const struct row *r = hand.row;
    if (++failures > SHOWN)
        return;
    printf("rows: %s, a %s: %s\n  of: %s\n", side_names[hand.side], call_names[hand.kind], hand.wrong, text_of(hand.rule));
    printf("  the table: fresh, card %u; then %s; then set by hand %s\n", r->card, shown(text_of(r->before)), shown(hand.set));
    printf("  the line '%s', channel %u, contacts %u, card %u; sizes off by %d, %d and %d\n", text_of(r->line), r->channel, r->contacts,
           r->wanted, r->table, r->reply, r->pulses);
}

/* Makes the call in hand on both sides. */
static void run_call(void)
{
    for (hand.side = LIBRARY; hand.side < NOTHING; hand.side++) {
        calls++;
        bool good = make_table();
        old = now;
        if (!good || !is_right(make_row_call()))
            show_failure();
    }
}

/* Runs a row: on each table that it has, and where it is of each call, each call. */
static void run_row(const struct row *r)
{
    char *copy = copied(r->set != NULL && *r->set != 0 ? r->set : " "), *left = copy;
    hand.row = r;
    for (char *set = next_part(&left, '|'); set != NULL; set = next_part(&left, '|')) {
        hand.set = set;
        tables++;
        for (hand.kind = r->kind == EACH ? COMMAND : r->kind; hand.kind < (r->kind == EACH ? CALLS : r->kind + 1); hand.kind++)
            run_call();
    }
    free(copy);
}

int main(void)
{
    for (size_t k = 0; k < rows_size; k++)
        if (rows[k].kind == RULE)
            hand.rule = rows[k].rule;
        else
            run_row(&rows[k]);
    if (failures > SHOWN)
        printf("rows: and %u more\n", failures - SHOWN);
    if (failures == 0)
        printf("rows: %u rows passed, with %u calls, half of them of the library and half of the model\n", tables, calls);
    return failures == 0 ? 0 : 1;
}
