/*
 * stack [MOST]: how many bytes of stack each of the four calls takes, in the library and in the model, by painting (sides.c). Ends
 * with status 1 where one of the library's takes more than MOST, 512 if none is said: 02 §4, "The interrupt has 512 bytes to
 * spare".
 *
 * The deepest counts of: a line of every form, and some that no table takes, on each of the tables below; fresh, readings and a tick
 * on each of them; the steps of the tour, wrong sizes among them; and drawn lines, readings and ticks on drawn tables, sound and
 * damaged. A line that local mode refuses must be accepted on one sound table and refused on another, one that is taken
 * in both modes accepted on each of them, and STQ? on those of the four-motor card alone; a table that is not sound
 * refuses each.
 */
#include <stdbool.h>
#include <stdio.h>
#include <stdlib.h>
#include <string.h>

#include "draw.h"
#include "model.h"
#include "sides.h"

enum { DRAWN = 5000, MOST = 512 };

static const char *const call_names[CALLS] = {"fresh", "command", "reading", "tick"};

/* The deepest of each kind of call on each side, and how many calls were made. */
static uint32_t deepest[CALLS][NOTHING], made;

static _Noreturn void stop(const char *what, const char *which)
{
    printf("stack: %s%s\n", what, which);
    exit(2);
}

/* Measures the call in hand on both sides, which must agree, and gives its number. */
static uint32_t measure(void)
{
    uint32_t results[NOTHING];
    made++;
    for (int side = 0; side < NOTHING; side++) {
        uint32_t depth = stack_of(side);
        uint32_t *most = &deepest[call.kind][side];
        *most = depth > *most ? depth : *most;
        results[side] = call.result;
    }
    if (results[LIBRARY] != results[MODEL])
        stop("the library and the model differ in a ", call_names[call.kind]);
    return URQOLINA_NUMBER(results[LIBRARY]);
}

static uint32_t measure_line(const uint8_t *line, size_t size)
{
    take_up(COMMAND, "", 0, 0);
    call.line = line;
    call.line_size = size;
    return measure();
}

static uint32_t measure_reading(uint32_t channel, uint32_t contacts)
{
    take_up(READING, "", channel, contacts);
    return measure();
}

static uint32_t measure_tick(void)
{
    take_up(TICK, "", 0, 0);
    return measure();
}

/* The tables: fresh, with these lines sent, all switches read or none, so many channels started and so many ticks passed. Where
   damage is not 0, that byte is made 1, and the table is not sound: in its busy set, by its card, in the rest of its
   head, at its own end. */
static const struct {
    const char *before[3];
    bool read;
    uint32_t driving, ticks, damage, card;
} tables[] = {
    {{NULL}, false, 0, 0, 0, URQOLINA_CARD_16},
    {{"REM", "ALL_REP EN"}, true, 0, 0, 0, URQOLINA_CARD_16},
    {{"REM", "SETLS011110000", "SETLSF11110000"}, true, 0, 0, 0, URQOLINA_CARD_16},
    {{"REM", "ALL_REP EN"}, true, 16, 1, 0, URQOLINA_CARD_16},
    {{"REM", "PAUSE ON", "ALL_REP EN"}, true, 16, 1, 0, URQOLINA_CARD_16},
    {{"REM"}, true, 16, 0, 4, URQOLINA_CARD_16},
    {{"REM"}, true, 16, 0, 63, URQOLINA_CARD_16},
    {{"REM"}, true, 16, 0, 1087, URQOLINA_CARD_16},
    {{NULL}, false, 0, 0, 0, URQOLINA_CARD_4},
    {{"REM", "ALL_REP EN"}, true, 3, 1, 0, URQOLINA_CARD_4},
    {{"REM", "ALL_REP EN"}, true, 4, 1, 0, URQOLINA_CARD_4},
    {{"REM", "PAUSE ON", "ALL_REP EN"}, true, 4, 1, 0, URQOLINA_CARD_4},
    {{"REM"}, true, 5, 0, 6, URQOLINA_CARD_16},
    {{"REM"}, true, 4, 0, 7, URQOLINA_CARD_4},
};

static void pass_ticks(uint32_t ticks)
{
    uint8_t pulses[URQOLINA_PULSES_SIZE];
    for (uint32_t k = 0; k < ticks; k++)
        model_tick(start, URQOLINA_TABLE_SIZE, pulses, sizeof pulses);
}

static void make_table(size_t n)
{
    memset(start, 0, sizeof start);
    model_fresh(start, URQOLINA_TABLE_SIZE, tables[n].card);
    for (size_t k = 0; k < 3 && tables[n].before[k] != NULL; k++)
        if (send_line(tables[n].before[k]) != URQOLINA_OK)
            stop("not accepted before: ", tables[n].before[k]);
    if (tables[n].read)
        set_out(tables[n].driving);
    pass_ticks(tables[n].ticks);
    if (tables[n].damage != 0)
        start[tables[n].damage] = 1;
}

/* A line of every form that local mode refuses. */
static const char *const lines[] = {
    "ABS0+100",     "ABS0-2147483647", "ABS0100",  "REL0+3",   "RELF-3",   "RELF3",          "SCANP0",     "SCANN0",
    "JOGP0",        "JOGN0",           "SPC0400",  "PS0+12",   "PS0-2147483647", "PS012",    "FL0+3",      "FL00000000250",
    "BL0-3",        "BL03",            "SPDH0",    "SPDM0",    "SPDL0",    "SPDH05000000",   "SPDM0800",   "SPDL01",
    "SETLS011110000", "SETMT01100",    "ALL_REP EN", "ALL_REP DS", "PAUSE ON", "PAUSE OFF"};

/* A line of every form that is taken in both modes. */
static const char *const both_modes[] = {
    "SSTP0",   "ESTP0",   "ASSTP",  "AESTP", "PS?0", "FL?0",       "BL?0",       "SPD?0",    "SPDH?0", "SPDM?0", "SPDL?0",
    "SETLS?0", "SETMT?0", "STS0?",  "LOC",   "REM",  "ALL_REP?",   "ERRF?",      "ERR?",     "ERRC",   "ERRC3",  "PAUSE?",
    "BSY?"};

/* Lines that no table takes. */
static const char *const no_lines[] = {
    "", "ABSBB+5", "ABS0", "SPDM0800000000000", "ALL_REP EM", "SETLS011111000", "ERRC9", "PAUSE OF", "BSY?0", "STQ",
    "STQ?0", "xyz"};

#define COUNT(list) (sizeof list / sizeof list[0])

/* Whether some sound table took each line, and whether one refused it. */
static bool accepted[COUNT(lines)], refused[COUNT(lines)];

/* Measures a line, which a table that is not sound must answer with 6, and a sound one with something else. */
static uint32_t measure_text(size_t n, const char *line)
{
    uint32_t number = measure_line((const uint8_t *)line, strlen(line));
    if ((number == URQOLINA_NOT_SOUND) != (tables[n].damage != 0))
        stop("6 for a sound table, or none for another: ", line);
    return number;
}

static void measure_lines(size_t n)
{
    for (size_t k = 0; k < COUNT(lines); k++) {
        uint32_t number = measure_text(n, lines[k]);
        accepted[k] = accepted[k] || number == URQOLINA_OK;
        refused[k] = refused[k] || (number != URQOLINA_OK && number != URQOLINA_NOT_SOUND);
    }
    for (size_t k = 0; k < COUNT(both_modes); k++)
        if (measure_text(n, both_modes[k]) != URQOLINA_OK && tables[n].damage == 0)
            stop("refused on a sound table: ", both_modes[k]);
    if ((measure_text(n, "STQ?") == URQOLINA_OK) != (tables[n].damage == 0 && tables[n].card == URQOLINA_CARD_4))
        stop("accepted on the sixteen-motor card, or refused on the other: ", "STQ?");
    for (size_t k = 0; k < COUNT(no_lines); k++)
        if (measure_text(n, no_lines[k]) == URQOLINA_OK)
            stop("accepted: ", no_lines[k]);
}

/* Readings of the first channel and of the last, a tick, and fresh with each card and one that is none. */
static void measure_rest(void)
{
    for (uint32_t k = 0; k < 2 * (URQOLINA_CONTACTS_MOST + 1); k++)
        measure_reading(k % 2 * (URQOLINA_CHANNELS - 1), k / 2);
    measure_tick();
    for (uint32_t card = URQOLINA_CARD_16; card <= URQOLINA_CARD_4 + 1; card++) {
        take_up(FRESH, "", 0, 0);
        call.card = card;
        if ((measure() == URQOLINA_OK) != (card <= URQOLINA_CARD_4))
            stop("a card was refused, or one that is none taken", "");
    }
}

static void measure_tables(void)
{
    for (size_t n = 0; n < COUNT(tables); n++) {
        make_table(n);
        measure_lines(n);
        measure_rest();
    }
    for (size_t k = 0; k < COUNT(lines); k++)
        if (!accepted[k] || !refused[k])
            stop(accepted[k] ? "refused on no sound table: " : "accepted on no table: ", lines[k]);
}

/* What comes before a step of the tour: readings, ticks and lines are told apart by their first two bytes. */
static void send_before(const char *before)
{
    char text[TOUR_BEFORE_MOST];
    if (snprintf(text, sizeof text, "%s", before) >= (int)sizeof text)
        stop("too long to stand before a step: ", before);
    for (char *part = strtok(text, ";"); part != NULL; part = strtok(NULL, ";"))
        if (strncmp(part, "S ", 2) == 0)
            model_reading(start, URQOLINA_TABLE_SIZE, (uint32_t)strtoul(part + 2, NULL, 16), (uint32_t)strtoul(part + 4, NULL, 10));
        else if (strncmp(part, "T ", 2) == 0)
            pass_ticks((uint32_t)strtoul(part + 2, NULL, 10));
        else
            send_line(part);
}

static void measure_step(const struct step *s)
{
    memset(start, 0, sizeof start);
    model_fresh(start, URQOLINA_TABLE_SIZE, s->card);
    send_before(s->before != NULL ? s->before : "");
    tour_damage(s, start);
    take_up(s->kind, s->line != NULL ? s->line : "", s->channel, s->contacts);
    call.card = s->wanted;
    call.table_size = (size_t)((int)URQOLINA_TABLE_SIZE + s->table);
    call.reply_size = (size_t)((int)URQOLINA_REPLY_SIZE + s->reply);
    call.pulses_size = (size_t)((int)URQOLINA_PULSES_SIZE + s->pulses);
    if (measure() != s->number)
        stop("a step of the tour gives another number: ", s->line != NULL ? s->line : call_names[s->kind]);
}

/* A line, a reading and a tick on a table that is drawn, and damaged once in four times. */
static void measure_drawn(struct draw *d)
{
    uint8_t line[DRAW_LINE_MOST];
    draw_sound_table(d, start);
    size_t size = draw_line(d, start, line);
    if (draw_once_in(d, 4))
        size = draw_line_damage(d, line, size);
    if (draw_once_in(d, 4))
        draw_damage(d, start);
    measure_line(line, size);
    measure_reading(draw_below(d, 16), draw_below(d, 8));
    measure_tick();
}

/* Prints the deepest of each kind of call, and says whether one of the library's takes more than that. */
static bool judge(uint32_t most)
{
    bool good = true;
    printf("stack: the deepest of %u calls, in bytes, the library's and the model's:", made);
    for (int kind = 0; kind < CALLS; kind++) {
        printf("%s %s %u and %u", kind == 0 ? "" : ",", call_names[kind], deepest[kind][LIBRARY], deepest[kind][MODEL]);
        good = good && deepest[kind][LIBRARY] <= most;
    }
    printf("; at most %u may be taken\n", most);
    if (!good)
        printf("stack: a call takes more\n");
    return good;
}

int main(int words, char **word)
{
    struct draw d = {7};
    if (!paint_holds())
        stop("the painting does not find what is 1,000 bytes down", "");
    measure_tables();
    for (size_t k = 0; k < tour_size; k++)
        measure_step(&tour[k]);
    for (int k = 0; k < DRAWN; k++)
        measure_drawn(&d);
    return judge(words > 1 ? (uint32_t)strtoul(word[1], NULL, 10) : MOST) ? 0 : 1;
}
