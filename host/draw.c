/*
 * The draws of differ. The rules of the documents stand here a third time, turned round: not what is sound or has a form, but
 * how to make what is. differ counts the numbers that the calls give, so a draw that misses its aim is seen.
 */
#include "draw.h"

#include <string.h>

#include "urqolina.h"

enum { HEAD = 64, RECORD = 64 };
enum { POSITION = 0, CW_LIMIT = 4, CCW_LIMIT = 8, HSPD = 12, SELECTED = 24, SETLS = 25, CONTACTS = 26, SETMT = 27, ENDED = 31 };
enum { GOING = 32, KIND = 33, FRACTION = 34, SPEED = 36, TARGET = 40, READ = 44 };
enum { STOPPED, CW, CCW, HELD = 2 };
enum { MODE = 0, ALL_REPLY = 1, FLAGS = 2, PAUSE = 3, BUSY = 4, CARD = 6, HEAD_ZEROS = 7 };

static const int64_t END = 2147483647;

/* splitmix64: short, and good enough to draw from. */
static uint64_t next(struct draw *d)
{
    d->state += 0x9e3779b97f4a7c15u;
    uint64_t z = d->state;
    z = (z ^ (z >> 30)) * 0xbf58476d1ce4e5b9u;
    z = (z ^ (z >> 27)) * 0x94d049bb133111ebu;
    return z ^ (z >> 31);
}

uint32_t draw_below(struct draw *d, uint32_t n)
{
    return (uint32_t)(next(d) >> 32) % n;
}

bool draw_once_in(struct draw *d, uint32_t n)
{
    return draw_below(d, n) == 0;
}

void draw_bytes(struct draw *d, uint8_t *bytes, size_t size)
{
    for (size_t k = 0; k < size; k++)
        bytes[k] = (uint8_t)(next(d) >> 56);
}

uint32_t draw_word(struct draw *d)
{
    static const uint32_t ends[] = {0,          1,          2,          7,         8,         15,        16,
                                    255,        256,        999,        1000,      1001,      65535,     65536,
                                    4999999,    5000000,    5000001,    16777216,  0x7ffffffe, 0x7fffffff, 0x80000000,
                                    0x80000001, 0xfffffffe, 0xffffffff};
    if (draw_once_in(d, 4))
        return (uint32_t)next(d);
    return ends[draw_below(d, sizeof ends / sizeof ends[0])];
}

/* What is no card is one too many, one that fewer bits would cut to a card, or any. */
uint32_t draw_card(struct draw *d)
{
    uint32_t card = draw_below(d, 2);
    if (!draw_once_in(d, 3))
        return card;
    switch (draw_below(d, 3)) {
    case 0: return 2 + card;
    case 1: return card | 1u << (1 + draw_below(d, 31));
    default: return draw_word(d);
    }
}

static void put(uint8_t *at, uint32_t word)
{
    for (int k = 0; k < 4; k++)
        at[k] = (uint8_t)(word >> 8 * k);
}

static int64_t position_at(const uint8_t *at)
{
    uint32_t word = (uint32_t)at[0] | (uint32_t)at[1] << 8 | (uint32_t)at[2] << 16 | (uint32_t)at[3] << 24;
    return word < 0x80000000u ? (int64_t)word : (int64_t)word - 4294967296;
}

static int64_t within(int64_t position)
{
    return position > END ? END : position < -END ? -END : position;
}

/* A power of ten, where the number of digits changes. */
static int64_t draw_ten(struct draw *d)
{
    int64_t ten = 1;
    for (uint32_t k = draw_below(d, 10); k > 0; k--)
        ten *= 10;
    return draw_once_in(d, 2) ? ten : -ten;
}

/* A position: near 0, near an end, near a power of ten, near another one, or anywhere. */
static int64_t draw_position(struct draw *d, int64_t near)
{
    int64_t step = (int64_t)draw_below(d, 7) - 3;
    switch (draw_below(d, 8)) {
    case 0: return step;
    case 4: return draw_ten(d) + step;
    case 1: return within(END + step);
    case 2: return within(-END + step);
    case 3: return within((int64_t)draw_word(d) - 2147483648);
    default: return within(near + step);
    }
}

static uint32_t draw_speed(struct draw *d)
{
    static const uint32_t speeds[] = {1, 2, 9, 10, 50, 800, 999, 1000, 1001, 1999, 2000, 99999, 100000, 999999, 1000000, 4999999, 5000000};
    if (draw_once_in(d, 3))
        return 1 + draw_below(d, 5000000);
    return speeds[draw_below(d, sizeof speeds / sizeof speeds[0])];
}

/* The switches of a channel that was read or, once in three times, was not: its contacts are then unknown, and 0. */
static void draw_contacts(struct draw *d, uint8_t *record)
{
    if (draw_once_in(d, 3))
        return;
    record[READ] = 1;
    record[CONTACTS] = (uint8_t)draw_below(d, 8);
}

/* Settings in their ranges; limits often beside the position, and often crossed. */
static void draw_settings(struct draw *d, uint8_t *record)
{
    int64_t position = draw_position(d, 0);
    put(record + POSITION, (uint32_t)position);
    put(record + CW_LIMIT, (uint32_t)draw_position(d, position));
    put(record + CCW_LIMIT, (uint32_t)draw_position(d, position));
    for (int k = 0; k < 3; k++)
        put(record + HSPD + 4 * k, draw_speed(d));
    record[SELECTED] = (uint8_t)draw_below(d, 3);
    record[SETLS] = (uint8_t)(draw_below(d, 256) & 0xf7u);
    draw_contacts(d, record);
    record[SETMT] = (uint8_t)draw_below(d, 2);
    record[SETMT + 1] = (uint8_t)draw_below(d, 2);
    record[SETMT + 3] = (uint8_t)draw_below(d, 3);
}

/* Lets a switch not be active: its contact is closed just where it is N.C. */
static void release(uint8_t *record, unsigned bit)
{
    unsigned nc = (unsigned)record[SETLS] >> bit & 1u;
    record[CONTACTS] = (uint8_t)((record[CONTACTS] & ~(1u << bit)) | nc << bit);
}

/* Makes room of a pulse or more: the position leaves the end of the range, and the digital limit goes ahead of it. */
static void make_room(struct draw *d, uint8_t *record, int64_t sign)
{
    int64_t position = position_at(record + POSITION);
    if (position == sign * END)
        position -= sign;
    put(record + POSITION, (uint32_t)position);
    uint8_t *limit = record + (sign > 0 ? CW_LIMIT : CCW_LIMIT);
    if (sign * (position_at(limit) - position) < 1)
        put(limit, (uint32_t)within(position + sign * (1 + (int64_t)draw_below(d, 6000))));
}

/* Makes the switch of a direction active and enabled: by its contact, or where that is unknown by its polarity. */
static void make_active(uint8_t *record, unsigned bit)
{
    record[SETLS] = (uint8_t)(record[SETLS] | 0x10u << bit);
    release(record, bit);
    if (record[READ] == 1)
        record[CONTACTS] = (uint8_t)(record[CONTACTS] ^ 1u << bit);
    else {
        record[CONTACTS] = 0;
        record[SETLS] = (uint8_t)(record[SETLS] | 1u << bit);
    }
}

/* One of the causes for which a start in a direction is refused: A = 0, contacts unknown, an active enabled switch, a digital limit at
   the position or behind it, the end of the range. */
static void put_cause(struct draw *d, uint8_t *record, bool cw)
{
    int64_t sign = cw ? 1 : -1;
    switch (draw_below(d, 5)) {
    case 0: record[SETMT] = 0; break;
    case 1: record[READ] = record[CONTACTS] = 0; break;
    case 2: make_active(record, cw ? 0 : 1); break;
    case 3:
        record[SETLS] |= 0x80;
        put(record + (cw ? CW_LIMIT : CCW_LIMIT), (uint32_t)within(position_at(record + POSITION) - sign * (int64_t)draw_below(d, 3)));
        break;
    default: put(record + POSITION, (uint32_t)(sign * END)); break;
    }
}

/* A stopped motor that can leave in a direction, but for one cause or two, or none. */
static void draw_causes(struct draw *d, uint8_t *record)
{
    bool cw = draw_once_in(d, 2);
    record[SETMT] = record[READ] = 1;
    release(record, cw ? 0 : 1);
    make_room(d, record, cw ? 1 : -1);
    for (uint32_t k = draw_below(d, 3); k > 0; k--)
        put_cause(d, record, cw);
}

/* A drive, of a channel that was read: a scan, or to a target that is often one ahead; the fraction often 999. Under pause it is held
   half the time. */
static void draw_drive(struct draw *d, uint8_t *record, bool paused)
{
    bool cw = draw_once_in(d, 2);
    int64_t sign = cw ? 1 : -1;
    record[READ] = 1;
    if ((unsigned)record[SETLS] >> (cw ? 4 : 5) & 1u)
        release(record, cw ? 0 : 1);
    make_room(d, record, sign);
    record[SETMT] = 1;
    record[GOING] = (uint8_t)((cw ? CW : CCW) + (paused && draw_once_in(d, 2) ? HELD : 0));
    uint32_t fraction = draw_once_in(d, 2) ? 999 : draw_below(d, 1000);
    record[FRACTION] = (uint8_t)fraction;
    record[FRACTION + 1] = (uint8_t)(fraction >> 8);
    put(record + SPEED, draw_speed(d));
    if (draw_once_in(d, 2)) {
        int64_t position = position_at(record + POSITION);
        int64_t steps = draw_once_in(d, 2) ? 1 : 1 + (int64_t)(draw_once_in(d, 4) ? draw_word(d) : draw_below(d, 9000));
        record[KIND] = 1;
        put(record + TARGET, (uint32_t)within(position + sign * steps));
    }
}

uint32_t draw_busy_set(const uint8_t *table)
{
    uint32_t set = 0;
    for (int c = 0; c < 16; c++)
        set |= (uint32_t)(table[HEAD + RECORD * c + GOING] != STOPPED) << c;
    return set;
}

static void put_busy_set(uint8_t *table, uint32_t set)
{
    table[BUSY] = (uint8_t)set;
    table[BUSY + 1] = (uint8_t)(set >> 8);
}

/* The channels that drive: on the four-motor card mostly three or four, any of the sixteen; on the other one up to all
   of them, often four, five or all but one. */
static uint32_t draw_driving(struct draw *d, bool four)
{
    static const uint8_t counts[2][10] = {{0, 0, 1, 4, 5, 8, 12, 15, 16, 16}, {0, 1, 2, 3, 3, 3, 4, 4, 4, 4}};
    uint32_t count = counts[four][draw_below(d, 10)], set = 0;
    while (count > 0) {
        uint32_t channel = 1u << draw_below(d, 16);
        count -= (set & channel) == 0;
        set |= channel;
    }
    return set;
}

void draw_sound_table(struct draw *d, uint8_t *table)
{
    static const uint8_t ends[] = {0, 0x20, 0x40, 0x80};
    bool four = draw_once_in(d, 2);
    uint32_t driving = draw_driving(d, four);
    memset(table, 0, URQOLINA_TABLE_SIZE);
    table[MODE] = draw_once_in(d, 5) ? 0 : 1;
    table[ALL_REPLY] = (uint8_t)draw_below(d, 2);
    table[FLAGS] = (uint8_t)draw_below(d, 16);
    table[PAUSE] = (uint8_t)draw_below(d, 2);
    table[CARD] = four ? URQOLINA_CARD_4 : URQOLINA_CARD_16;
    for (int c = 0; c < 16; c++) {
        uint8_t *record = table + HEAD + RECORD * c;
        draw_settings(d, record);
        if ((driving >> c & 1u) != 0)
            draw_drive(d, record, table[PAUSE] == 1);
        else {
            record[ENDED] = ends[draw_below(d, 4)];
            if (draw_once_in(d, 2))
                draw_causes(d, record);
        }
    }
    put_busy_set(table, draw_busy_set(table));
}

/* The busy set as it may go wrong: a channel too many or too few, its bytes in the other order, held drives left out, none in it, or
   anything. */
static void damage_busy_set(struct draw *d, uint8_t *table)
{
    uint32_t set = (uint32_t)table[BUSY] | (uint32_t)table[BUSY + 1] << 8;
    switch (draw_below(d, 8)) {
    case 0: set = set >> 8 | set << 8; break;
    case 1: set = draw_below(d, 65536); break;
    case 2: set = 0; break;
    case 3:
        for (int c = 0; c < 16; c++)
            if (table[HEAD + RECORD * c + GOING] > CCW)
                set &= ~(1u << c);
        break;
    default: set ^= 1u << draw_below(d, 16); break;
    }
    put_busy_set(table, set);
}

/* The card as it may go wrong: the other one, which is sound where no more than four are busy, or none. */
static void damage_card(struct draw *d, uint8_t *table)
{
    static const uint8_t others[] = {0, 1, 2, 3, 128, 255};
    if (draw_once_in(d, 2))
        table[CARD] ^= 1;
    else
        table[CARD] = others[draw_below(d, sizeof others)];
}

/* Damages a byte or a number, whatever comes of the busy set. */
static void damage_field(struct draw *d, uint8_t *table)
{
    static const uint8_t words[] = {POSITION, CW_LIMIT, CCW_LIMIT, HSPD, HSPD + 4, HSPD + 8, SPEED, TARGET};
    static const uint8_t zeros[] = {HEAD_ZEROS, HEAD_ZEROS + 1, HEAD - 1};
    uint8_t *record = table + HEAD + RECORD * draw_below(d, 16);
    uint8_t *byte = table + draw_below(d, URQOLINA_TABLE_SIZE);
    uint32_t word;
    switch (draw_below(d, 9)) {
    case 0:
        word = draw_word(d);
        put(record + words[draw_below(d, sizeof words)], word);
        return;
    case 1: byte = table + draw_below(d, HEAD); break;
    case 2: break;
    case 3: byte = record + (draw_once_in(d, 2) ? CONTACTS : READ); break;
    case 4: byte = draw_once_in(d, 2) ? table + PAUSE : record + GOING; break;
    case 5: byte = table + zeros[draw_below(d, sizeof zeros)]; break;
    default: byte = record + SELECTED + draw_below(d, READ + 2 - SELECTED); break;
    }
    if (draw_once_in(d, 2))
        *byte = (uint8_t)(*byte ^ 1u << draw_below(d, 8));
    else
        *byte = (uint8_t)(draw_once_in(d, 2) ? *byte + 1u : draw_below(d, 256));
}

/* Where a record has come to be busy or has ceased to be, the busy set is made true half the time, so that another rule decides. */
void draw_damage(struct draw *d, uint8_t *table)
{
    uint32_t set = draw_busy_set(table);
    if (draw_once_in(d, 6)) {
        damage_busy_set(d, table);
        return;
    }
    if (draw_once_in(d, 8)) {
        damage_card(d, table);
        return;
    }
    damage_field(d, table);
    if (draw_busy_set(table) != set && draw_once_in(d, 2))
        put_busy_set(table, draw_busy_set(table));
}

/*
 * The forms, the starts first. x stands for a channel, s for a number that may have a sign, u for one that may not, y for a digit
 * that is mostly 0 or 1, z for one that is mostly 0, e for any digit; p for the channel's position.
 */
static const char *const forms[] = {
    "ABSxs",  "RELxs",  "SCANPx", "SCANNx", "JOGPx",  "JOGNx",  "SSTPx",      "ESTPx",      "ASSTP",          "AESTP",
    "SPCxu",  "PSxs",   "FLxs",   "BLxs",   "SPDHx",  "SPDMx",  "SPDLx",      "SPDHxu",     "SPDMxu",         "SPDLxu",
    "PS?x",   "FL?x",   "BL?x",   "SPD?x",  "SPDH?x", "SPDM?x", "SPDL?x",     "SETLS?x",    "SETMT?x",        "STSx?",
    "LOC",    "REM",    "ERRF?",  "ERR?",   "ERRC",   "ERRCe",  "ALL_REP EN", "ALL_REP DS", "SETLSxyyyy0yyy", "SETMTxyyzy",
    "ALL_REP?", "PAUSE ON", "PAUSE OFF", "PAUSE?", "BSY?", "STQ?"};
enum { STARTS = 6 };

/* What a line of the four-motor card is more often than one of the other: a start, so that places are asked for, one
   that moves nothing, or STQ?, and now and then what is nearly that. */
static const char *draw_four_form(struct draw *d)
{
    static const char *const near[] = {"STQ", "STQ?x", "STQx?", "stq?"};
    switch (draw_below(d, 8)) {
    case 0: return "STQ?";
    case 1: return draw_once_in(d, 4) ? near[draw_below(d, sizeof near / sizeof near[0])] : "STQ?";
    case 2: return draw_once_in(d, 2) ? "RELx0" : "ABSxp";
    default: return forms[draw_below(d, STARTS)];
    }
}

/* A signed number: near the channel's position, its limits or the ends of the range, small, or anything. */
static int64_t draw_signed(struct draw *d, const uint8_t *record)
{
    int64_t step = (int64_t)draw_below(d, 5) - 2;
    switch (draw_below(d, 9)) {
    case 0: return position_at(record + POSITION) + step;
    case 7: return draw_ten(d) + step;
    case 1: return position_at(record + CW_LIMIT) + step;
    case 2: return END - position_at(record + POSITION) + step;
    case 3: return -END - position_at(record + POSITION) + step;
    case 4: return (draw_once_in(d, 2) ? END : -END) + step;
    case 5: return (int64_t)(next(d) % 20000000000u) - 10000000000;
    case 6: return (int64_t)draw_below(d, 20001) - 10000;
    default: return step;
    }
}

static uint64_t draw_unsigned(struct draw *d)
{
    static const uint64_t ends[] = {0, 1, 4999999, 5000000, 5000001, 4294967295u, 4294967296u, 4294967297u, 9999999999u};
    if (draw_once_in(d, 2))
        return draw_speed(d);
    return ends[draw_below(d, sizeof ends / sizeof ends[0])];
}

/* How many zeros to write before a number of some digits: mostly none, else up to eleven digits in all, often ten or eleven. */
static uint32_t draw_zeros(struct draw *d, uint32_t count)
{
    if (count >= 11 || !draw_once_in(d, 5))
        return 0;
    if (count < 10 && draw_once_in(d, 2))
        return 10 - count + draw_below(d, 2);
    return draw_below(d, 12 - count);
}

/* Writes a number in digits, now and then with zeros before it. Gives the place after it. */
static uint8_t *put_number(struct draw *d, uint8_t *at, uint64_t n)
{
    uint8_t digits[20];
    uint32_t count = 0;
    do {
        digits[count++] = (uint8_t)('0' + n % 10);
        n /= 10;
    } while (n != 0);
    for (uint32_t zeros = draw_zeros(d, count); zeros > 0; zeros--)
        *at++ = '0';
    while (count > 0)
        *at++ = digits[--count];
    return at;
}

/* Now and then a sign where none may stand. Gives the place after it. */
static uint8_t *put_stray_sign(struct draw *d, uint8_t *at)
{
    if (!draw_once_in(d, 40))
        return at;
    *at = draw_once_in(d, 2) ? '-' : '+';
    return at + 1;
}

/* The sign of a number; a number that is not below zero has none half the time. Gives the place after it. */
static uint8_t *put_sign(struct draw *d, uint8_t *at, int64_t n)
{
    at = put_stray_sign(d, at);
    if (n < 0 || (n == 0 && draw_once_in(d, 3)))
        *at++ = '-';
    else if (draw_once_in(d, 2))
        *at++ = '+';
    return at;
}

static uint8_t *put_field(struct draw *d, uint8_t *at, char field, uint32_t channel, const uint8_t *record)
{
    int64_t n;
    switch (field) {
    case 'x': *at = (uint8_t)"0123456789ABCDEF"[channel]; return at + 1;
    case 's': case 'p':
        n = field == 'p' ? position_at(record + POSITION) : draw_signed(d, record);
        at = put_sign(d, at, n);
        return put_number(d, at, (uint64_t)(n < 0 ? -n : n));
    case 'u': return put_number(d, put_stray_sign(d, at), draw_unsigned(d));
    case 'y': *at = (uint8_t)('0' + (draw_once_in(d, 40) ? draw_below(d, 10) : draw_below(d, 2))); return at + 1;
    case 'z': *at = (uint8_t)('0' + (draw_once_in(d, 20) ? draw_below(d, 10) : 0)); return at + 1;
    case 'e': *at = (uint8_t)('0' + draw_below(d, 10)); return at + 1;
    default: *at = (uint8_t)field; return at + 1;
    }
}

/* A few channels are named more often than the others, so that lines meet on them. Once in three times it is the next
   one that stands, if one does, so that the last free place is asked for, and one more. */
static uint32_t draw_channel(struct draw *d, const uint8_t *table)
{
    static const uint8_t often[] = {0, 0, 5, 11, 15};
    uint32_t channel = draw_once_in(d, 4) ? draw_below(d, 16) : often[draw_below(d, sizeof often)];
    if (draw_once_in(d, 3))
        for (int k = 0; k < 16 && table[HEAD + RECORD * channel + GOING] != STOPPED; k++)
            channel = (channel + 1) % 16;
    return channel;
}

size_t draw_line(struct draw *d, const uint8_t *table, uint8_t *line)
{
    uint32_t channel = draw_channel(d, table);
    const char *form = forms[draw_below(d, draw_once_in(d, 6) ? STARTS : sizeof forms / sizeof forms[0])];
    uint8_t *at = line;
    if (table[MODE] == 0 && draw_once_in(d, 3))
        form = "REM";
    else if (table[PAUSE] == 1 && draw_once_in(d, 10))
        form = "PAUSE OFF";
    else if (table[CARD] == URQOLINA_CARD_4 && draw_once_in(d, 3))
        form = draw_four_form(d);
    for (; *form != '\0'; form++)
        at = put_field(d, at, *form, channel, table + HEAD + RECORD * channel);
    return (size_t)(at - line);
}

/* A byte that lines have, or any. */
static uint8_t draw_byte(struct draw *d)
{
    static const char some[] = "0123456789ABCDEFGHLMNOPRSTUXY+-?_ abf\r\n/:;@`";
    return draw_once_in(d, 3) ? (uint8_t)draw_below(d, 256) : (uint8_t)some[draw_below(d, sizeof some)];
}

size_t draw_line_damage(struct draw *d, uint8_t *line, size_t size)
{
    size_t at = draw_below(d, (uint32_t)size + 1);
    switch (draw_below(d, 8)) {
    case 0: /* a byte less */
        if (at == size)
            return size;
        memmove(line + at, line + at + 1, size - at - 1);
        return size - 1;
    case 1: /* a byte more */
        memmove(line + at + 1, line + at, size - at);
        line[at] = draw_byte(d);
        return size + 1;
    case 2: /* cut short */
        return at;
    case 3: /* drawn out, over 80 bytes too */
        at = size + draw_below(d, 100);
        memset(line + size, draw_byte(d), at - size);
        return at;
    case 4: /* any bytes */
        at = draw_below(d, draw_once_in(d, 4) ? 200 : 16);
        draw_bytes(d, line, at);
        return at;
    default:
        if (at < size)
            line[at] = draw_byte(d);
        return size;
    }
}
