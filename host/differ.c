/*
 * differ [N [SEED]]: makes N calls, 200,000 if none is said, of the library and of the model side by side: the same calls on two
 * copies of every buffer. After each call the results and every byte of every buffer are compared. The run follows from the
 * seed. The first difference ends it, with status 1.
 *
 * A run begins with the tour, which has every number that a call can give (tour.c). Then calls are drawn, up to the first 5,000;
 * then comes the sweep, every size of every buffer; and then calls are drawn to the end.
 *
 * What is held against each of the two besides: no byte outside a lent buffer is touched, read or written (bytes of a known
 * value around it, and pages that can't be touched beside those), a line is never written, 5 and 6 write nothing, every other
 * refusal writes its error flag and its text alone, the bytes past a reply stay, and after every call but a 5 or a 6
 * the busy set is true, the card is what it was or what fresh was told, and no motor has become busy where none was
 * free.
 *
 * Where MODEL_ALONE is defined the model stands on both sides: for the sanitizers, which the library is not built for.
 */
#define _DEFAULT_SOURCE
#include <inttypes.h>
#include <signal.h>
#include <stdio.h>
#include <stdlib.h>
#include <string.h>
#include <sys/mman.h>
#include <unistd.h>

#include "draw.h"
#include "model.h"
#include "tour.h"
#include "urqolina.h"

#ifdef MODEL_ALONE
#define urqolina_fresh model_fresh
#define urqolina_command model_command
#define urqolina_reading model_reading
#define urqolina_tick model_tick
#endif

enum { LIBRARY, MODEL, SIDES };
enum { CANARY = 0xc5, BESIDE = 64, AREA = 8192 };

/* The sweep: how many calls come before it, the sizes and numbers that it goes up to, and its calls. */
enum { FIRST = 5000, TABLE_MOST = 2 * URQOLINA_TABLE_SIZE + 2, BUFFER_MOST = 300, CHANNEL_MOST = 39, CONTACTS_MOST = 19 };
enum { SWEEP = 4 * TABLE_MOST + 2 + 3 * (BUFFER_MOST + 1) + 4 * (2 + CALLS) + (CHANNEL_MOST + 1) * (CONTACTS_MOST + 1) };
/* What an episode may make more once it is to end. */
enum { REST = 4 };

static const char *const side_names[SIDES] = {"the library", "the model"};
static const char *const call_names[CALLS] = {"fresh", "command", "reading", "tick"};

/* A buffer that is lent to both sides: in each an area of its own between two pages that can't be touched. */
struct lent {
    const char *name;
    uint8_t *area[SIDES];
    size_t start;
    size_t size;
    size_t said; /* the size that the calls are told: size, but where a size of more than 32 bits is tried */
    uint8_t before[AREA]; /* what both copies held before the call */
};

static struct lent table = {.name = "table"}, line = {.name = "line"}, reply = {.name = "reply"}, pulses = {.name = "pulses"};

/* The call in hand. */
static struct {
    int kind;
    uint32_t channel, contacts, card;
    uint32_t results[SIDES];
} call;

static struct draw chance;
static uint64_t seed = 1, made, wanted = 200000;
static uint64_t numbers[CALLS][TOUR_NUMBERS];
static bool in_tour = true;
/* At this many calls an episode ends. */
static uint64_t pause_at = UINT64_MAX;
/* What the sweep has in hand. */
static struct {
    const char *what;
    size_t size;
} sweep;

static uint8_t *copy_of(const struct lent *b, int side)
{
    return b->area[side] + b->start;
}

/* Whether a call of this kind is lent this buffer. */
static bool is_lent(const struct lent *b)
{
    return b == &table || (b == &pulses ? call.kind == TICK : call.kind == COMMAND);
}

static void print_bytes(const char *what, const uint8_t *bytes, size_t size)
{
    printf("  %s, %zu bytes:", what, size);
    for (size_t k = 0; k < size; k++)
        printf("%s%02x", k % 32 == 0 ? "\n    " : " ", bytes[k]);
    printf("\n");
}

/* Says what differs, and all that went into the call, and ends the run. */
static _Noreturn void differs(const char *what, const char *where)
{
    printf("differ: seed %" PRIu64 ", call %" PRIu64 " (%s): %s%s\n", seed, made, call_names[call.kind], what, where);
    printf("  results: the library %" PRIu32 ", the model %" PRIu32 "\n", call.results[LIBRARY], call.results[MODEL]);
    if (call.kind == FRESH)
        printf("  card %" PRIu32 "\n", call.card);
    if (call.kind == READING)
        printf("  channel %" PRIu32 ", contacts %" PRIu32 "\n", call.channel, call.contacts);
    if (call.kind == COMMAND) {
        print_bytes("the line", line.before, line.size);
        print_bytes("the reply before", reply.before, reply.size);
    }
    if (call.kind == TICK)
        print_bytes("the pulses before", pulses.before, pulses.size);
    print_bytes("the table before", table.before, table.size);
    exit(1);
}

/* A call touched a page that it was not lent: nothing can be compared any more. */
static void on_fault(int number)
{
    (void)number;
    static char text[120];
    int size = snprintf(text, sizeof text, "differ: seed %" PRIu64 ", call %" PRIu64 " (%s): a byte that was not lent was touched\n",
                        seed, made, call_names[call.kind]);
    if (size > 0 && write(STDOUT_FILENO, text, (size_t)size) < 0)
        _exit(2);
    _exit(1);
}

static void make_areas(struct lent *b)
{
    size_t page = (size_t)sysconf(_SC_PAGESIZE);
    for (int side = 0; side < SIDES; side++) {
        uint8_t *all = mmap(NULL, 2 * page + AREA, PROT_NONE, MAP_PRIVATE | MAP_ANONYMOUS, -1, 0);
        if (all == MAP_FAILED || mprotect(all + page, AREA, PROT_READ | PROT_WRITE) != 0) {
            perror("differ");
            exit(2);
        }
        b->area[side] = all + page;
        memset(b->area[side], CANARY, AREA);
    }
}

/* Lends a buffer of a size anew: at the end of its area, at the start, or anywhere in it. Both copies start at the same place. */
static void lend(struct lent *b, size_t size)
{
    for (int side = 0; side < SIDES; side++)
        memset(copy_of(b, side), CANARY, b->size);
    uint32_t where = draw_below(&chance, 4);
    b->size = b->said = size;
    b->start = where == 0 ? 0 : where == 1 ? draw_below(&chance, (uint32_t)(AREA - size + 1)) : AREA - size;
}

/* Sets both copies. */
static void fill(struct lent *b, const uint8_t *bytes)
{
    for (int side = 0; side < SIDES; side++)
        memcpy(copy_of(b, side), bytes, b->size);
}

static bool is_canary(const uint8_t *from, size_t size)
{
    for (size_t k = 0; k < size; k++)
        if (from[k] != CANARY)
            return false;
    return true;
}

/* Looks at the bytes around a buffer, as far as they are given. */
static void look_around(const struct lent *b, size_t far)
{
    size_t end = b->start + b->size;
    size_t below = b->start < far ? b->start : far, above = AREA - end < far ? AREA - end : far;
    for (int side = 0; side < SIDES; side++)
        if (!is_canary(b->area[side] + b->start - below, below) || !is_canary(b->area[side] + end, above))
            differs("bytes were written around the ", b->name);
}

/* Whether a side left the bytes of a buffer from a place on as they were. */
static void must_keep(const struct lent *b, size_t from, const char *what)
{
    for (int side = 0; side < SIDES; side++)
        if (from < b->size && memcmp(copy_of(b, side) + from, b->before + from, b->size - from) != 0)
            differs(what, side_names[side]);
}

static void compare_buffer(const struct lent *b, uint32_t number)
{
    if (b->size != 0 && memcmp(copy_of(b, LIBRARY), copy_of(b, MODEL), b->size) != 0)
        differs("the two differ in the ", b->name);
    look_around(b, BESIDE);
    if (number == URQOLINA_WRONG_SIZE || number == URQOLINA_NOT_SOUND)
        must_keep(b, 0, "5 or 6 and yet a byte was written by ");
}

/* A refused line sets its error flag and changes nothing else in the table: 1, 2 and 3 have theirs, the others share the last. */
static void compare_refusal(uint32_t number)
{
    enum { FLAGS = 2 };
    uint8_t flag = (uint8_t)(number <= 3 ? 1u << (number - 1) : 8u);
    for (int side = 0; side < SIDES; side++) {
        const uint8_t *now = copy_of(&table, side);
        if (now[FLAGS] != (table.before[FLAGS] | flag) || memcmp(now, table.before, FLAGS) != 0)
            differs("a refused line left another head than its flag makes, by ", side_names[side]);
    }
    must_keep(&table, FLAGS + 1, "a refused line changed more than its flag, by ");
}

/* Where a call is not answered 5 or 6, the busy set is true after it. */
static void compare_busy_set(void)
{
    for (int side = 0; side < SIDES; side++)
        if (urqolina_busy(copy_of(&table, side)) != draw_busy_set(copy_of(&table, side)))
            differs("the busy set is not true, by ", side_names[side]);
}

/* But for fresh the card stays. A start is 14 only where four motors of four are busy, and there none becomes busy. */
static void compare_card(uint32_t number)
{
    uint32_t card = call.kind == FRESH ? call.card : urqolina_card(table.before);
    uint32_t left = urqolina_free_motors(table.before), busy = urqolina_busy(table.before);
    for (int side = 0; side < SIDES; side++) {
        const uint8_t *now = copy_of(&table, side);
        if (urqolina_card(now) != card)
            differs("the table is of another card, by ", side_names[side]);
        if (left == 0 && (urqolina_busy(now) & ~busy) != 0)
            differs("a motor has become busy where none was free, by ", side_names[side]);
    }
    if (number == URQOLINA_FOUR_BUSY && (card != URQOLINA_CARD_4 || left != 0))
        differs("14 where a motor was free, or on the sixteen-motor card", "");
}

static void compare(void)
{
    static const struct lent *const all[] = {&table, &line, &reply, &pulses};
    uint32_t number = call.results[LIBRARY] & 0xff;
    if (call.results[LIBRARY] != call.results[MODEL])
        differs("the results differ", "");
    if (number >= TOUR_NUMBERS || (tour_numbers[call.kind] >> number & 1u) == 0 || (call.kind != COMMAND && call.results[LIBRARY] != number))
        differs("there is no such number", "");
    for (int k = 0; k < 4; k++)
        if (is_lent(all[k]))
            compare_buffer(all[k], number);
    if (number != URQOLINA_WRONG_SIZE && number != URQOLINA_NOT_SOUND) {
        compare_busy_set();
        compare_card(number);
    }
    if (call.kind == COMMAND) {
        if (number != URQOLINA_OK && number != URQOLINA_WRONG_SIZE && number != URQOLINA_NOT_SOUND)
            compare_refusal(number);
        must_keep(&line, 0, "the line was written by ");
        must_keep(&reply, call.results[LIBRARY] >> 8, "bytes past the reply were written by ");
    }
    numbers[call.kind][number]++;
}

static void keep_before(struct lent *b)
{
    if (is_lent(b) && b->size != 0)
        memcpy(b->before, copy_of(b, LIBRARY), b->size);
}

/* Whether some call can give a number. */
static bool is_number(unsigned number)
{
    uint32_t all = 0;
    for (int kind = 0; kind < CALLS; kind++)
        all |= tour_numbers[kind];
    return (all >> number & 1u) != 0;
}

/* Says whether every size was tried, or how far that got. */
static void print_sweep(void)
{
    if (made >= FIRST + SWEEP) {
        printf("differ: every size was tried, in calls %d to %d\n", FIRST + 1, FIRST + SWEEP);
        return;
    }
    printf("differ: NOT every size was tried: that is calls %d to %d, and the run ended ", FIRST + 1, FIRST + SWEEP);
    if (sweep.what == NULL)
        printf("before them\n");
    else
        printf("with call %" PRIu64 " of those %d, at %s%zu\n", made - FIRST, SWEEP, sweep.what, sweep.size);
}

/* The last call is made: says how many gave which number, so that it can be seen what the run reached. */
static _Noreturn void finish(void)
{
    printf("differ: seed %" PRIu64 ", %" PRIu64 " calls, no difference; by the number given:\n%8s", seed, made, "");
    for (unsigned number = 0; number < TOUR_NUMBERS; number++)
        if (is_number(number))
            printf(" %10u", number);
    for (int kind = 0; kind < CALLS; kind++) {
        printf("\n%8s", call_names[kind]);
        for (unsigned number = 0; number < TOUR_NUMBERS; number++)
            if (is_number(number))
                printf(" %10" PRIu64, numbers[kind][number]);
    }
    printf("\n");
    if (in_tour)
        printf("differ: NOT every number was tried: the run ended within the tour\n");
    print_sweep();
    if (fflush(stdout) != 0) {
        perror("differ");
        exit(2);
    }
    exit(0);
}

/* Makes a call on both sides, each on its own copies, and compares. */
static void make_call(int kind)
{
    uint8_t *t[SIDES] = {copy_of(&table, LIBRARY), copy_of(&table, MODEL)};
    uint8_t *l[SIDES] = {copy_of(&line, LIBRARY), copy_of(&line, MODEL)};
    uint8_t *r[SIDES] = {copy_of(&reply, LIBRARY), copy_of(&reply, MODEL)};
    uint8_t *p[SIDES] = {copy_of(&pulses, LIBRARY), copy_of(&pulses, MODEL)};
    uint32_t *results = call.results;
    call.kind = kind;
    made++;
    keep_before(&table);
    keep_before(&line);
    keep_before(&reply);
    keep_before(&pulses);
    switch (kind) {
    case FRESH:
        results[LIBRARY] = urqolina_fresh(t[LIBRARY], table.said, call.card);
        results[MODEL] = model_fresh(t[MODEL], table.said, call.card);
        break;
    case COMMAND:
        results[LIBRARY] = urqolina_command(t[LIBRARY], table.said, l[LIBRARY], line.said, r[LIBRARY], reply.said);
        results[MODEL] = model_command(t[MODEL], table.said, l[MODEL], line.said, r[MODEL], reply.said);
        break;
    case READING:
        results[LIBRARY] = urqolina_reading(t[LIBRARY], table.said, call.channel, call.contacts);
        results[MODEL] = model_reading(t[MODEL], table.said, call.channel, call.contacts);
        break;
    default:
        results[LIBRARY] = urqolina_tick(t[LIBRARY], table.said, p[LIBRARY], pulses.said);
        results[MODEL] = model_tick(t[MODEL], table.said, p[MODEL], pulses.said);
        break;
    }
    compare();
    if (made == wanted)
        finish();
}

/* Lends a buffer with any bytes in it. */
static void lend_any(struct lent *b, size_t size)
{
    static uint8_t bytes[AREA];
    lend(b, size);
    draw_bytes(&chance, bytes, size);
    fill(b, bytes);
}

/* A size: the right one, or now and then a wrong one, beside it or anywhere. */
static size_t draw_size(size_t right)
{
    if (!draw_once_in(&chance, 200))
        return right;
    return draw_once_in(&chance, 2) ? right - 1 + draw_below(&chance, 3) : draw_below(&chance, (uint32_t)(2 * right + 1));
}

static void make_command(const uint8_t *bytes, size_t size)
{
    lend(&line, size);
    fill(&line, bytes);
    lend_any(&reply, draw_size(32 + (draw_once_in(&chance, 4) ? draw_below(&chance, 40) : 0)));
    make_call(COMMAND);
}

/* A command for the table as it stands: a line with a form, or once in four times a damaged one. */
static void draw_command(void)
{
    static uint8_t bytes[DRAW_LINE_MOST];
    size_t size = draw_line(&chance, table.size == URQOLINA_TABLE_SIZE ? copy_of(&table, MODEL) : table.before, bytes);
    if (draw_once_in(&chance, 4))
        size = draw_line_damage(&chance, bytes, size);
    make_command(bytes, size);
}

/* A reading, now and then out of range. */
static void draw_reading(void)
{
    call.channel = draw_below(&chance, 16);
    call.contacts = draw_below(&chance, 8);
    if (draw_once_in(&chance, 30))
        call.channel = draw_once_in(&chance, 2) ? draw_word(&chance) : call.channel | 1u << (4 + draw_below(&chance, 28));
    if (draw_once_in(&chance, 30))
        call.contacts = draw_once_in(&chance, 2) ? draw_word(&chance) : call.contacts | 1u << (3 + draw_below(&chance, 29));
    make_call(READING);
}

static void draw_tick(void)
{
    if (pulses.size != 64 || draw_once_in(&chance, 16))
        lend_any(&pulses, draw_size(64));
    make_call(TICK);
}

static void draw_call(void)
{
    switch (draw_below(&chance, 16)) {
    case 0: draw_reading(); return;
    case 1: case 2: case 3: case 4: case 5: case 6: case 7: draw_tick(); return;
    default: draw_command(); return;
    }
}

/* The table's two copies anew. */
static void lend_table(const uint8_t *bytes, size_t size)
{
    lend(&table, size);
    fill(&table, bytes);
}

static void make_fresh(uint32_t card)
{
    call.card = card;
    make_call(FRESH);
}

/* What firmware does at power-up, or does in part, or not at all: the switches of the channels are read, mostly all open. */
static void read_channels(void)
{
    uint32_t parts = draw_below(&chance, 4);
    for (uint32_t c = 0; c < 16 && made < pause_at; c++) {
        if (draw_below(&chance, 3) >= parts)
            continue;
        call.channel = c;
        call.contacts = draw_once_in(&chance, 4) ? draw_below(&chance, 8) : 0;
        make_call(READING);
    }
}

/* Calls one after the other on one table, which goes on from call to call: from a fresh one, whose switches are read before more
   than one call, or from one in a rare state. Both are sound, and stay so. */
static void session(bool fresh, uint32_t most)
{
    static uint8_t bytes[URQOLINA_TABLE_SIZE];
    draw_sound_table(&chance, bytes);
    lend_table(bytes, sizeof bytes);
    if (fresh)
        make_fresh(draw_below(&chance, 2));
    if (fresh && most > 1)
        read_channels();
    for (uint32_t k = 1 + draw_below(&chance, most); k > 0 && made < pause_at; k--) {
        draw_call();
        if ((call.results[LIBRARY] & 0xff) == URQOLINA_NOT_SOUND)
            differs("a table that must be sound was answered 6", "");
    }
}

/* One call on each of some tables that are damaged, in one byte or in many, or are any bytes. */
static void damaged(void)
{
    static uint8_t sound[URQOLINA_TABLE_SIZE], bytes[URQOLINA_TABLE_SIZE];
    draw_sound_table(&chance, sound);
    for (uint32_t k = 0; k < 24 && made < pause_at; k++) {
        memcpy(bytes, sound, sizeof bytes);
        uint32_t times = draw_once_in(&chance, 4) ? 2 + draw_below(&chance, 40) : 1;
        for (uint32_t n = 0; n < times; n++)
            draw_damage(&chance, bytes);
        if (draw_once_in(&chance, 50))
            draw_bytes(&chance, bytes, sizeof bytes);
        lend_table(bytes, sizeof bytes);
        draw_call();
        if (draw_once_in(&chance, 50))
            make_fresh(draw_card(&chance));
    }
}

/* Fresh with any card, on tables of either, sound or damaged. */
static void fresh_again(void)
{
    static uint8_t bytes[URQOLINA_TABLE_SIZE];
    for (uint32_t k = 0; k < 8 && made < pause_at; k++) {
        draw_sound_table(&chance, bytes);
        if (draw_once_in(&chance, 2))
            draw_damage(&chance, bytes);
        lend_table(bytes, sizeof bytes);
        make_fresh(draw_card(&chance));
    }
}

/* Each call on a table of a wrong size, whose bytes are a sound table's as far as they go. */
static void wrong_table_size(size_t size)
{
    static uint8_t bytes[AREA];
    draw_sound_table(&chance, bytes);
    lend_table(bytes, size);
    make_fresh(draw_card(&chance));
    lend_table(bytes, size);
    make_command((const uint8_t *)"REM", 3);
    draw_reading();
    draw_tick();
}

/* Every size that a buffer may have up to past its right one, each once. */
static void every_size(void)
{
    static uint8_t bytes[AREA];
    sweep.what = "tables of size ";
    for (size_t size = 0; size <= TABLE_MOST; size++)
        if (size != URQOLINA_TABLE_SIZE) {
            sweep.size = size;
            wrong_table_size(size);
        }
    session(true, 1);
    sweep.what = "replies, pulse buffers and lines of size ";
    for (size_t size = 0; size <= BUFFER_MOST; size++) {
        sweep.size = size;
        lend_any(&reply, size);
        lend(&line, 5);
        fill(&line, (const uint8_t *)"STS0?");
        make_call(COMMAND);
        lend_any(&pulses, size);
        make_call(TICK);
        memset(bytes, '0', size);
        memcpy(bytes, "ABS0+", size < 5 ? size : 5);
        make_command(bytes, size);
    }
}

/* Sizes that a count of 32 bits would cut to the right one. No call has to look at a byte past those that are there. */
static void sizes_past_32_bits(void)
{
    static struct lent *const all[] = {&table, &line, &reply, &pulses};
    sweep.what = "sizes past 32 bits, buffer ";
    for (int k = 0; k < 4; k++) {
        sweep.size = (size_t)k + 1;
        session(true, 1);
        lend(&line, 5);
        fill(&line, (const uint8_t *)"STS0?");
        lend_any(&reply, 32);
        lend_any(&pulses, 64);
        all[k]->said += (size_t)1 << 32;
        call.card = URQOLINA_CARD_4;
        for (int kind = 0; kind < CALLS; kind++)
            make_call(kind);
        all[k]->said = all[k]->size;
    }
}

/* Channels and contacts about the ends of their ranges, each with each. */
static void every_reading(void)
{
    sweep.what = "readings of channel ";
    for (uint32_t channel = 0; channel <= CHANNEL_MOST; channel++)
        for (uint32_t contacts = 0; contacts <= CONTACTS_MOST; contacts++) {
            sweep.size = channel;
            call.channel = channel;
            call.contacts = contacts;
            make_call(READING);
        }
}

/* One line with each of the 256 bytes in one of its places, on one table. */
static void every_byte(void)
{
    static uint8_t bytes[URQOLINA_TABLE_SIZE], text[DRAW_LINE_MOST];
    draw_sound_table(&chance, bytes);
    size_t size = draw_line(&chance, bytes, text), at = draw_below(&chance, (uint32_t)size);
    for (unsigned byte = 0; byte < 256 && made < pause_at; byte++) {
        lend_table(bytes, sizeof bytes);
        text[at] = (uint8_t)byte;
        make_command(text, size);
    }
}

/* An episode: what the run is made of. */
static void episode(void)
{
    static const struct lent *const all[] = {&table, &line, &reply, &pulses};
    switch (draw_below(&chance, 64)) {
    case 0: session(true, 10000); break;
    case 1: every_byte(); break;
    case 2: case 3: wrong_table_size(draw_below(&chance, 1200)); break;
    case 4: case 5: case 6: case 7: session(true, 200); break;
    case 8: fresh_again(); break;
    default: draw_once_in(&chance, 3) ? session(false, 30) : damaged(); break;
    }
    for (int k = 0; k < 4; k++)
        look_around(all[k], AREA);
}

/* Episodes, and at the last single calls, until so many calls have been made. */
static void draw_until(uint64_t end)
{
    pause_at = end - REST;
    while (made < pause_at)
        episode();
    while (made < end)
        draw_call();
    pause_at = UINT64_MAX;
}

static void make_sweep(void)
{
    every_size();
    sizes_past_32_bits();
    every_reading();
    if (made != FIRST + SWEEP) {
        printf("differ: the sweep is %" PRIu64 " calls, and SWEEP says %d\n", made - FIRST, SWEEP);
        exit(2);
    }
}

/* Sends a line in a reply buffer of a size. */
static void send_line(const char *text, size_t size, size_t reply_size)
{
    lend(&line, size);
    fill(&line, (const uint8_t *)text);
    lend_any(&reply, reply_size);
    make_call(COMMAND);
}

/* Makes a reading that is written as in a script, S x n. */
static void read_written(const char *text)
{
    call.channel = (uint32_t)(text[2] <= '9' ? text[2] - '0' : text[2] - 'A' + 10);
    call.contacts = (uint32_t)(text[4] - '0');
    make_call(READING);
}

/* Makes a tick, in a pulse buffer of the right size. */
static void make_tick(void)
{
    lend_any(&pulses, URQOLINA_PULSES_SIZE);
    make_call(TICK);
}

/* Makes the readings and ticks and sends the lines that stand before a step, one after the other. */
static void send_before(const char *lines)
{
    while (lines != NULL && *lines != '\0') {
        size_t size = strcspn(lines, ";");
        if (strncmp(lines, "S ", 2) == 0)
            read_written(lines);
        else if (strncmp(lines, "T ", 2) == 0)
            for (uint32_t k = (uint32_t)strtoul(lines + 2, NULL, 10); k > 0; k--)
                make_tick();
        else
            send_line(lines, size, URQOLINA_REPLY_SIZE);
        if ((call.results[LIBRARY] & 0xff) != URQOLINA_OK)
            differs("a line before a step of the tour was refused", "");
        lines += size + (lines[size] == ';');
    }
}

static size_t size_off(size_t right, int by)
{
    return by < 0 ? right - (size_t)-by : right + (size_t)by;
}

/* Lends a step its table, fresh but for the lines before it, and makes its call. */
static void make_step(const struct step *s)
{
    static uint8_t bytes[AREA];
    draw_bytes(&chance, bytes, sizeof bytes);
    lend_table(bytes, URQOLINA_TABLE_SIZE);
    make_fresh(s->card);
    send_before(s->before);
    memcpy(bytes, copy_of(&table, MODEL), URQOLINA_TABLE_SIZE);
    tour_damage(s, bytes);
    lend_table(bytes, size_off(URQOLINA_TABLE_SIZE, s->table));
    lend_any(&pulses, size_off(URQOLINA_PULSES_SIZE, s->pulses));
    call.channel = s->channel;
    call.contacts = s->contacts;
    call.card = s->wanted;
    if (s->kind == COMMAND)
        send_line(s->line, strlen(s->line), size_off(URQOLINA_REPLY_SIZE, s->reply));
    else
        make_call(s->kind);
    if ((call.results[LIBRARY] & 0xff) != s->number)
        differs("a step of the tour gave another number than it is there for", "");
}

/* Every number that a call can give, each by a call that is made to give it. */
static void make_tour(void)
{
    for (size_t k = 0; k < tour_size; k++)
        make_step(&tour[k]);
    for (int kind = 0; kind < CALLS; kind++)
        for (unsigned number = 0; number < TOUR_NUMBERS; number++)
            if ((tour_numbers[kind] >> number & 1u) != 0 && numbers[kind][number] == 0) {
                printf("differ: the tour has no step for the number %u of a %s\n", number, call_names[kind]);
                exit(2);
            }
    for (unsigned number = 0; number < TOUR_NUMBERS; number++)
        if (is_number(number) != (strcmp(urqolina_advice(number), urqolina_advice(TOUR_NUMBERS)) != 0)) {
            printf("differ: the header has no sentence for the number %u, or one for a number that is not given\n", number);
            exit(2);
        }
    in_tour = false;
}

/* Reads a decimal number of at most 18 digits, and nothing else. */
static bool read_number(const char *text, uint64_t *number)
{
    size_t size = strlen(text);
    if (size == 0 || size > 18 || strspn(text, "0123456789") != size)
        return false;
    *number = strtoull(text, NULL, 10);
    return true;
}

int main(int count, char **words)
{
    if (count > 3 || (count > 1 && !read_number(words[1], &wanted)) || (count > 2 && !read_number(words[2], &seed)) || wanted == 0) {
        fprintf(stderr, "usage: differ [N [SEED]]: N from 1, SEED from 0, of at most 18 digits\n");
        return 2;
    }
    chance.state = seed;
    signal(SIGSEGV, on_fault);
    signal(SIGBUS, on_fault);
    make_areas(&table);
    make_areas(&line);
    make_areas(&reply);
    make_areas(&pulses);
    make_tour();
    draw_until(FIRST);
    make_sweep();
    for (;;)
        episode();
}
