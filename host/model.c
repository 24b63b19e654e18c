/*
 * Document 01 as amended by §1 to §7 of document 02, in plain C, written from the documents alone. It is compared with
 * the proved library call by call, and the library's speed is measured beside it. Words in quotation marks are document
 * 01's, unless document 02 is named beside them.
 */
#include "model.h"

#include <stdbool.h>
#include <string.h>

/* ---- The table ---- */

enum { HEAD_SIZE = 64, RECORD_SIZE = 64, MOTORS = 16, TABLE_SIZE = 1088, REPLY_LEAST = 32, PULSES_SIZE = 64 };

/* Places in the head. */
enum { MODE = 0, ALL_REPLY = 1, ERROR_FLAGS = 2, PAUSE = 3, BUSY_SET = 4, CARD = 6, HEAD_ZEROS = 7 };

/* Places in a record. */
enum {
    POSITION = 0,
    CW_LIMIT = 4,
    CCW_LIMIT = 8,
    HSPD = 12,
    MSPD = 16,
    LSPD = 20,
    SELECTED = 24,
    SETLS = 25,
    CONTACTS = 26,
    SETMT_A = 27,
    SETMT_B = 28,
    SETMT_C = 29,
    SETMT_D = 30,
    END_FLAGS = 31,
    STATE = 32,
    KIND = 33,
    FRACTION = 34,
    SPEED_IN_FORCE = 36,
    TARGET = 40,
    CONTACTS_KNOWN = 44,
    RECORD_ZEROS = 45
};

enum { LOCAL = 0, REMOTE = 1 };

/* 02 §7: "Head byte 6 picks the card (0 sixteen, 1 four)". Both have sixteen channels; the four runs any four. */
enum { SIXTEEN_CARD = 0, FOUR_CARD = 1, FOUR_CARD_MOST = 4 };

enum { SPEED_L = 0, SPEED_M = 1, SPEED_H = 2 };
enum { ESEND = 0x80, SSEND = 0x40, LSEND = 0x20, NO_END = 0 };
enum { SCAN = 0, TO_TARGET = 1 };

/*
 * Byte 32. A direction's number is also the bit of its switch in the contacts: "bit 0 CW, bit 1 CCW". A held drive's
 * number, 02 §3: "3 (CW) or 4 (CCW)", is no such bit; it lies HELD above its direction's.
 */
enum { STOPPED = 0, CW = 1, CCW = 2, HELD_CW = 3, HELD_CCW = 4 };
enum { HELD = HELD_CW - CW };

/* SETLS as a byte, DYYY0yyy: D, the three enables from bit 4 on, the fixed 0, the three polarities from bit 0 on. */
enum { SETLS_DIGITAL = 0x80, SETLS_ENABLES = 4, SETLS_FIXED = 0x08, ALL_CONTACTS = 7 };

static const int32_t POSITION_MOST = 2147483647;
static const uint32_t SPEED_MOST = 5000000;

/*
 * "Numbers handed back". 02 §5: "Split 4 by cause": 7 to 13 stand in its place, and "4 is no longer given". 02 §7: "a
 * fifth start is 14".
 */
enum {
    OK = 0,
    COMMAND_ERROR = 1,
    BUSY_ERROR = 2,
    PARAMETER_ERROR = 3,
    WRONG_SIZE = 5,
    NOT_SOUND = 6,
    LOCAL_MODE = 7,
    MOTOR_DISABLED = 8,
    CONTACTS_UNREAD = 9,
    SWITCH_ACTIVE = 10,
    NO_ROOM_LIMIT = 11,
    NO_ROOM_RANGE = 12,
    SPC_STOPPED = 13,
    CARD_FULL = 14
};

/* ---- Numbers in the table, little-endian ---- */

static inline uint32_t load2(const uint8_t *at)
{
    return (uint32_t)at[0] | (uint32_t)at[1] << 8;
}

static inline uint32_t load4(const uint8_t *at)
{
    return (uint32_t)at[0] | (uint32_t)at[1] << 8 | (uint32_t)at[2] << 16 | (uint32_t)at[3] << 24;
}

static inline uint64_t load8(const uint8_t *at)
{
    return (uint64_t)load4(at) | (uint64_t)load4(at + 4) << 32;
}

/* int32_t is two's complement wherever it exists, so its bits are the number. */
static inline int32_t load_signed(const uint8_t *at)
{
    uint32_t bits = load4(at);
    int32_t number;
    memcpy(&number, &bits, sizeof number);
    return number;
}

static inline void store2(uint8_t *at, uint32_t number)
{
    at[0] = (uint8_t)number;
    at[1] = (uint8_t)(number >> 8);
}

static inline void store4(uint8_t *at, uint32_t number)
{
    at[0] = (uint8_t)number;
    at[1] = (uint8_t)(number >> 8);
    at[2] = (uint8_t)(number >> 16);
    at[3] = (uint8_t)(number >> 24);
}

/* Eight bytes for a zero test only: their order is of no account there. */
static inline uint64_t any_bits(const uint8_t *at)
{
    uint64_t bits;
    memcpy(&bits, at, sizeof bits);
    return bits;
}

static inline uint8_t *motor_of(uint8_t *table, uint32_t channel)
{
    return table + HEAD_SIZE + RECORD_SIZE * channel;
}

/* ---- Switches, room and drives ---- */

/*
 * 02 §6: "Keep it in head bytes 4-5, bit c for channel c, held drives included." In a sound table it is the set of the
 * records whose byte 32 is not 0, so a walk over the busy motors may pass the others by.
 */
static inline uint32_t busy_set(const uint8_t *table)
{
    return load2(table + BUSY_SET);
}

static inline uint32_t channel_bit(uint32_t channel)
{
    return (uint32_t)1 << channel;
}

/* 02 §7: "the number of set bits in the busy word". The bits are added in pairs, in fours and in bytes. */
static inline uint32_t busy_count(const uint8_t *table)
{
    uint32_t set = busy_set(table);
    uint32_t pairs = set - ((set >> 1) & 0x5555);
    uint32_t fours = (pairs & 0x3333) + ((pairs >> 2) & 0x3333);
    uint32_t bytes = (fours + (fours >> 4)) & 0x0f0f;
    return (bytes + (bytes >> 8)) & 0x1f;
}

/* 02 §7: "four less that number". For a sound table of the four-motor card, where it is 4 to 0. */
static inline uint32_t motors_left(const uint8_t *table)
{
    return FOUR_CARD_MOST - busy_count(table);
}

/* For the start of a stopped motor. On the sixteen card, at most the fifteen others are busy then. */
static inline bool card_full(const uint8_t *table)
{
    return table[CARD] == FOUR_CARD && motors_left(table) == 0;
}

/* 02 §3: "A held channel counts as driving for busy, stops and switch readings, but gets no pulses". */
static inline bool busy(const uint8_t *motor)
{
    return motor[STATE] != STOPPED;
}

static inline bool moving(const uint8_t *motor)
{
    return motor[STATE] == CW || motor[STATE] == CCW;
}

/* The direction of a drive, held or not; 0 for a stopped motor. */
static inline uint32_t direction_of(const uint8_t *motor)
{
    uint32_t state = motor[STATE];
    return state > CCW ? state - HELD : state;
}

/* "closed and N.O., or open and N.C.": the contact differs from the polarity. For contacts that are known. */
static inline uint32_t active_switches(const uint8_t *motor)
{
    return (uint32_t)(motor[CONTACTS] ^ motor[SETLS]) & ALL_CONTACTS;
}

/* An active enabled switch of this direction; none for a stopped motor, which has no direction. */
static inline bool switch_ahead(const uint8_t *motor, uint32_t direction)
{
    uint32_t enabled = (uint32_t)motor[SETLS] >> SETLS_ENABLES;
    return (active_switches(motor) & enabled & direction) != 0;
}

/* How far a place lies ahead in a direction; negative if it lies behind. */
static inline int64_t ahead(uint32_t direction, int64_t from, int64_t to)
{
    return direction == CW ? to - from : from - to;
}

static inline int64_t range_end(uint32_t direction)
{
    return direction == CW ? POSITION_MOST : -POSITION_MOST;
}

/* A sound digital limit lies within the positions' range, so with D = 1 it is the nearer of the two ends. */
static inline int64_t room(const uint8_t *motor, uint32_t direction)
{
    int64_t end = range_end(direction);
    if ((motor[SETLS] & SETLS_DIGITAL) != 0)
        end = load_signed(motor + (direction == CW ? CW_LIMIT : CCW_LIMIT));
    return ahead(direction, load_signed(motor + POSITION), end);
}

static inline int64_t target_distance(const uint8_t *motor, uint32_t direction)
{
    return ahead(direction, load_signed(motor + POSITION), load_signed(motor + TARGET));
}

/*
 * "Ending zeroes bytes 32..43." Byte 44 is left: contacts once read stay known. Every drive ends here, so its bit is
 * cleared in the call that ends it.
 */
static inline void end_drive(uint8_t *table, uint32_t channel, uint8_t flags)
{
    uint8_t *motor = motor_of(table, channel);
    motor[END_FLAGS] = flags;
    memset(motor + STATE, 0, CONTACTS_KNOWN - STATE);
    store2(table + BUSY_SET, busy_set(table) & ~channel_bit(channel));
}

/* ---- Soundness ---- */

static inline bool position_sound(const uint8_t *at)
{
    return load_signed(at) >= -POSITION_MOST;
}

static inline bool speed_sound(uint32_t speed)
{
    return speed >= 1 && speed <= SPEED_MOST;
}

/* The bits that may be set in bytes 24 to 31, read as one number. */
#define MAY_SET(place, bits) ((uint64_t)(bits) << (8 * ((place) - SELECTED)))
static const uint64_t SMALL_FIELDS =
    MAY_SET(SELECTED, 3) | MAY_SET(SETLS, 0xff ^ SETLS_FIXED) | MAY_SET(CONTACTS, ALL_CONTACTS) |
    MAY_SET(SETMT_A, 1) | MAY_SET(SETMT_B, 1) | MAY_SET(SETMT_C, 0) | MAY_SET(SETMT_D, 3) |
    MAY_SET(END_FLAGS, ESEND | SSEND | LSEND);

/* Bytes 24 to 31. Two fields stop at 2, and at most one end flag is set. */
static inline bool small_fields_sound(const uint8_t *motor)
{
    uint32_t flags = motor[END_FLAGS];
    return (load8(motor + SELECTED) & ~SMALL_FIELDS) == 0 && motor[SELECTED] <= 2 && motor[SETMT_D] <= 2 &&
           (flags & (flags - 1)) == 0;
}

/* Bytes 0 to 31. */
static inline bool settings_sound(const uint8_t *motor)
{
    return position_sound(motor + POSITION) && position_sound(motor + CW_LIMIT) && position_sound(motor + CCW_LIMIT) &&
           speed_sound(load4(motor + HSPD)) && speed_sound(load4(motor + MSPD)) && speed_sound(load4(motor + LSPD)) &&
           small_fields_sound(motor);
}

/* "for a target, a target strictly ahead (for a scan, target field 0)" */
static bool target_sound(const uint8_t *motor, uint32_t direction)
{
    if (motor[KIND] == SCAN)
        return load4(motor + TARGET) == 0;
    return motor[KIND] == TO_TARGET && position_sound(motor + TARGET) && target_distance(motor, direction) >= 1;
}

/* What is set in a record's zeros. They are looked at from 45 to 52, from 53 to 60 and from 56 on. */
static inline uint64_t zeros_bits(const uint8_t *motor)
{
    return any_bits(motor + RECORD_ZEROS) | any_bits(motor + 53) | any_bits(motor + 56);
}

/* Byte 44, of a stopped and of a driving record. 02 §2: "0 unknown, with contacts 0; 1 read". */
static inline bool known_sound(const uint8_t *motor)
{
    return motor[CONTACTS_KNOWN] == 1 || (motor[CONTACTS_KNOWN] | motor[CONTACTS]) == 0;
}

/*
 * Bytes 32 to 63 of a busy record, whose settings are sound; a held one "otherwise as a driving one", 02 §3. 02 §2: "a
 * driving record has 1" in byte 44.
 */
static bool drive_sound(const uint8_t *motor, uint32_t state_most)
{
    uint32_t direction = direction_of(motor);
    if (!busy(motor) || motor[STATE] > state_most)
        return false;
    if (motor[CONTACTS_KNOWN] != 1 || zeros_bits(motor) != 0)
        return false;
    return load2(motor + FRACTION) <= 999 && speed_sound(load4(motor + SPEED_IN_FORCE)) &&
           motor[END_FLAGS] == NO_END && motor[SETMT_A] == 1 && room(motor, direction) >= 1 &&
           !switch_ahead(motor, direction) && target_sound(motor, direction);
}

/* A stopped record has zeros from 32 to 43 and from 45 to its end. */
static inline bool stopped_sound(const uint8_t *motor)
{
    return (any_bits(motor + 32) | any_bits(motor + 36) | zeros_bits(motor)) == 0;
}

/*
 * 02 §6: "Soundness asks that it is true." A record in the busy set must be a sound drive, which is never stopped; one
 * that is not in it must be stopped.
 */
static bool motor_sound(const uint8_t *motor, bool in_busy_set, uint32_t state_most)
{
    if (!settings_sound(motor) || !known_sound(motor))
        return false;
    return in_busy_set ? drive_sound(motor, state_most) : stopped_sound(motor);
}

/* 02 §7: "with five busy a four-motor table is not sound", held ones included. That the set is true is asked apart. */
static inline bool card_sound(const uint8_t *table)
{
    return table[CARD] == SIXTEEN_CARD || (table[CARD] == FOUR_CARD && busy_count(table) <= FOUR_CARD_MOST);
}

/* The zeros are looked at from 7 to 14 and from 8 on. */
static bool head_sound(const uint8_t *table)
{
    uint64_t bits = any_bits(table + HEAD_ZEROS);
    for (size_t place = 8; place < HEAD_SIZE; place += 8)
        bits |= any_bits(table + place);
    return table[MODE] <= REMOTE && table[ALL_REPLY] <= 1 && table[ERROR_FLAGS] <= 15 && table[PAUSE] <= 1 &&
           bits == 0 && card_sound(table);
}

/*
 * 02 §3: "a held record is sound only under pause". A record can't tell that, so the head sets the most of byte 32. Nor
 * can it tell its bit of the busy set; channel 0's is the lowest.
 */
static bool table_sound(const uint8_t *table)
{
    if (!head_sound(table))
        return false;
    uint32_t state_most = table[PAUSE] == 0 ? CCW : HELD_CCW;
    uint32_t set = busy_set(table);
    for (const uint8_t *motor = table + HEAD_SIZE; motor < table + TABLE_SIZE; motor += RECORD_SIZE, set >>= 1)
        if (!motor_sound(motor, (set & 1) != 0, state_most))
            return false;
    return true;
}

/* ---- The forms of a line ---- */

/* What follows a form's word. Those from CHANNEL on begin with x. */
enum tail {
    NOTHING, MAYBE_E,
    CHANNEL, CHANNEL_ASK, CHANNEL_SIGNED, CHANNEL_SPEED, CHANNEL_MAYBE_SPEED, CHANNEL_LS, CHANNEL_MT
};

/*
 * When an order is taken. A read is taken in both modes and has a reply of its own; other orders are taken in both
 * modes, in remote mode, or in remote mode on a stopped motor.
 */
enum taken { READ, BOTH_MODES, REMOTE_ONLY, REMOTE_STOPPED };

enum verb {
    NO_VERB,
    GO_TO, GO_BY, JOG, GO_SCAN, CHANGE_SPEED,
    STOP, STOP_ALL,
    SET_PLACE, SELECT_OR_SET_SPEED, SET_LS, SET_MT,
    SET_MODE, SET_ALL_REPLY, SET_PAUSE, CLEAR_ERRORS,
    READ_PLACE, READ_SELECTED, READ_SPEED, READ_LS, READ_MT, READ_STATUS, READ_ALL_REPLY, READ_PAUSE, READ_BUSY_SET,
    READ_MOTORS_LEFT, READ_FLAGS, READ_ERROR
};

/* The detail is the direction, end flag, place in the record, speed or value that tells forms of one verb apart. */
struct form {
    uint8_t word[11];
    uint8_t size;
    uint8_t tail;
    uint8_t taken;
    uint8_t verb;
    uint8_t detail;
};

#define FORM(word, tail, taken, verb, detail) {word, sizeof word - 1, tail, taken, verb, detail}

/* An empty word begins every line, so this row ends every list. */
#define NO_FORM FORM("", NOTHING, READ, NO_VERB, 0)

/*
 * The forms by their first letter, those in S by the second too. A word with ? stands before the word that it
 * lengthens; the longer one then decides, since ? is no x.
 */
static const struct form FORMS_A[] = {
    FORM("ABS", CHANNEL_SIGNED, REMOTE_STOPPED, GO_TO, 0),
    FORM("ASSTP", NOTHING, BOTH_MODES, STOP_ALL, SSEND),
    FORM("AESTP", NOTHING, BOTH_MODES, STOP_ALL, ESEND),
    FORM("ALL_REP?", NOTHING, READ, READ_ALL_REPLY, 0),
    FORM("ALL_REP EN", NOTHING, REMOTE_ONLY, SET_ALL_REPLY, 1),
    FORM("ALL_REP DS", NOTHING, REMOTE_ONLY, SET_ALL_REPLY, 0),
    NO_FORM
};
static const struct form FORMS_B[] = {
    FORM("BL?", CHANNEL, READ, READ_PLACE, CCW_LIMIT),
    FORM("BL", CHANNEL_SIGNED, REMOTE_STOPPED, SET_PLACE, CCW_LIMIT),
    FORM("BSY?", NOTHING, READ, READ_BUSY_SET, 0),
    NO_FORM
};
static const struct form FORMS_E[] = {
    FORM("ESTP", CHANNEL, BOTH_MODES, STOP, ESEND),
    FORM("ERRF?", NOTHING, READ, READ_FLAGS, 0),
    FORM("ERR?", NOTHING, READ, READ_ERROR, 0),
    FORM("ERRC", MAYBE_E, BOTH_MODES, CLEAR_ERRORS, 0),
    NO_FORM
};
static const struct form FORMS_F[] = {
    FORM("FL?", CHANNEL, READ, READ_PLACE, CW_LIMIT),
    FORM("FL", CHANNEL_SIGNED, REMOTE_STOPPED, SET_PLACE, CW_LIMIT),
    NO_FORM
};
static const struct form FORMS_J[] = {
    FORM("JOGP", CHANNEL, REMOTE_STOPPED, JOG, CW),
    FORM("JOGN", CHANNEL, REMOTE_STOPPED, JOG, CCW),
    NO_FORM
};
static const struct form FORMS_L[] = {
    FORM("LOC", NOTHING, BOTH_MODES, SET_MODE, LOCAL),
    NO_FORM
};
static const struct form FORMS_P[] = {
    FORM("PS?", CHANNEL, READ, READ_PLACE, POSITION),
    FORM("PS", CHANNEL_SIGNED, REMOTE_STOPPED, SET_PLACE, POSITION),
    FORM("PAUSE?", NOTHING, READ, READ_PAUSE, 0),
    FORM("PAUSE ON", NOTHING, REMOTE_ONLY, SET_PAUSE, 1),
    FORM("PAUSE OFF", NOTHING, REMOTE_ONLY, SET_PAUSE, 0),
    NO_FORM
};
static const struct form FORMS_R[] = {
    FORM("REL", CHANNEL_SIGNED, REMOTE_STOPPED, GO_BY, 0),
    FORM("REM", NOTHING, BOTH_MODES, SET_MODE, REMOTE),
    NO_FORM
};
static const struct form FORMS_SC[] = {
    FORM("SCANP", CHANNEL, REMOTE_STOPPED, GO_SCAN, CW),
    FORM("SCANN", CHANNEL, REMOTE_STOPPED, GO_SCAN, CCW),
    NO_FORM
};
static const struct form FORMS_SE[] = {
    FORM("SETLS?", CHANNEL, READ, READ_LS, 0),
    FORM("SETMT?", CHANNEL, READ, READ_MT, 0),
    FORM("SETLS", CHANNEL_LS, REMOTE_STOPPED, SET_LS, 0),
    FORM("SETMT", CHANNEL_MT, REMOTE_STOPPED, SET_MT, 0),
    NO_FORM
};
static const struct form FORMS_SP[] = {
    FORM("SPC", CHANNEL_SPEED, REMOTE_ONLY, CHANGE_SPEED, 0),
    FORM("SPD?", CHANNEL, READ, READ_SELECTED, 0),
    FORM("SPDH?", CHANNEL, READ, READ_SPEED, SPEED_H),
    FORM("SPDM?", CHANNEL, READ, READ_SPEED, SPEED_M),
    FORM("SPDL?", CHANNEL, READ, READ_SPEED, SPEED_L),
    FORM("SPDH", CHANNEL_MAYBE_SPEED, REMOTE_STOPPED, SELECT_OR_SET_SPEED, SPEED_H),
    FORM("SPDM", CHANNEL_MAYBE_SPEED, REMOTE_STOPPED, SELECT_OR_SET_SPEED, SPEED_M),
    FORM("SPDL", CHANNEL_MAYBE_SPEED, REMOTE_STOPPED, SELECT_OR_SET_SPEED, SPEED_L),
    NO_FORM
};
static const struct form FORMS_SS[] = {
    FORM("SSTP", CHANNEL, BOTH_MODES, STOP, SSEND),
    NO_FORM
};
static const struct form FORMS_ST[] = {
    FORM("STS", CHANNEL_ASK, READ, READ_STATUS, 0),
    FORM("STQ?", NOTHING, READ, READ_MOTORS_LEFT, 0),
    NO_FORM
};
static const struct form FORMS_NONE[] = {NO_FORM};

static const struct form *forms_from_s(uint8_t second)
{
    switch (second) {
    case 'C': return FORMS_SC;
    case 'E': return FORMS_SE;
    case 'P': return FORMS_SP;
    case 'S': return FORMS_SS;
    case 'T': return FORMS_ST;
    default: return FORMS_NONE;
    }
}

static const struct form *forms_from(uint8_t first, uint8_t second)
{
    switch (first) {
    case 'A': return FORMS_A;
    case 'B': return FORMS_B;
    case 'E': return FORMS_E;
    case 'F': return FORMS_F;
    case 'J': return FORMS_J;
    case 'L': return FORMS_L;
    case 'P': return FORMS_P;
    case 'R': return FORMS_R;
    case 'S': return forms_from_s(second);
    default: return FORMS_NONE;
    }
}

/* ---- Reading a line ---- */

/* "The line in hand and the place reached travel together as one reader over the caller's bytes." */
struct reader {
    const uint8_t *line;
    size_t size;
    size_t place;
};

/* A line that has a form. Whether its values are in range is kept, since local mode is judged before them. */
struct order {
    const struct form *form;
    uint32_t channel;
    bool in_range;
    bool has_speed;
    int32_t number;    /* the signed number, the SETLS byte, or the error flags to clear */
    uint32_t speed;
    uint8_t digits[4]; /* of SETMT, as they stand in the record */
};

/* The first letter has led to the form already. */
static bool begins(const struct reader *reader, const struct form *form)
{
    if (form->size > reader->size)
        return false;
    for (size_t place = 1; place < form->size; place++)
        if (reader->line[place] != form->word[place])
            return false;
    return true;
}

static inline bool at_end(const struct reader *reader)
{
    return reader->place == reader->size;
}

/* Takes one byte if it is this one. */
static inline bool take_byte(struct reader *reader, uint8_t byte)
{
    if (at_end(reader) || reader->line[reader->place] != byte)
        return false;
    reader->place++;
    return true;
}

static inline bool take_digit(struct reader *reader, uint32_t *digit)
{
    if (at_end(reader) || reader->line[reader->place] < '0' || reader->line[reader->place] > '9')
        return false;
    *digit = (uint32_t)(reader->line[reader->place] - '0');
    reader->place++;
    return true;
}

static bool take_channel(struct reader *reader, uint32_t *channel)
{
    if (take_digit(reader, channel))
        return true;
    if (at_end(reader) || reader->line[reader->place] < 'A' || reader->line[reader->place] > 'F')
        return false;
    *channel = (uint32_t)(reader->line[reader->place] - 'A') + 10;
    reader->place++;
    return true;
}

/* "d: 1 to 10 digits." An eleventh is left over, and no form goes on after a number. */
static bool take_number(struct reader *reader, uint64_t *number)
{
    uint32_t digit;
    size_t start = reader->place;
    *number = 0;
    while (reader->place - start < 10 && take_digit(reader, &digit))
        *number = *number * 10 + digit;
    return reader->place > start;
}

/*
 * ±d. Document 01: "a sign, then 1 to 10 digits, its range the positions' range, REL's too". Document 02 §1: "Wherever
 * a form takes ±d, let a bare d mean plus." The sign alone may be missing, so a digit must follow all the same.
 */
static bool take_signed(struct reader *reader, struct order *order)
{
    uint64_t number;
    bool minus = !take_byte(reader, '+') && take_byte(reader, '-');
    if (!take_number(reader, &number))
        return false;
    order->in_range = number <= (uint64_t)POSITION_MOST;
    if (order->in_range)
        order->number = minus ? -(int32_t)number : (int32_t)number;
    return true;
}

static bool take_speed(struct reader *reader, struct order *order)
{
    uint64_t number;
    if (!take_number(reader, &number))
        return false;
    order->in_range = number >= 1 && number <= SPEED_MOST;
    order->speed = (uint32_t)number;
    order->has_speed = true;
    return true;
}

/* DYYY0yyy: "the 0 is itself; D, Y and y are 0 or 1". */
static bool take_ls(struct reader *reader, struct order *order)
{
    uint32_t byte = 0;
    for (uint32_t bit = 0x80; bit != 0; bit >>= 1) {
        uint32_t digit;
        if (!take_digit(reader, &digit) || (bit == SETLS_FIXED && digit != 0))
            return false;
        if (digit > 1)
            order->in_range = false;
        else if (digit == 1)
            byte |= bit;
    }
    order->number = (int32_t)byte;
    return true;
}

/* ABCD: "A (0, 1), B (0, 1), C (0), D (0..2)". */
static bool take_mt(struct reader *reader, struct order *order)
{
    static const uint8_t most[4] = {1, 1, 0, 2};
    for (size_t place = 0; place < 4; place++) {
        uint32_t digit;
        if (!take_digit(reader, &digit))
            return false;
        if (digit > most[place])
            order->in_range = false;
        order->digits[place] = (uint8_t)digit;
    }
    return true;
}

/* "ERRC clears all error flags, ERRCe bit e, 0 to 3." */
static void take_e(struct reader *reader, struct order *order)
{
    uint32_t bit;
    order->number = 15;
    if (take_digit(reader, &bit)) {
        order->in_range = bit <= 3;
        order->number = 1 << bit;
    }
}

static bool take_tail(struct reader *reader, struct order *order)
{
    uint32_t tail = order->form->tail;
    if (tail >= CHANNEL && !take_channel(reader, &order->channel))
        return false;
    switch (tail) {
    case MAYBE_E:
        take_e(reader, order);
        return true;
    case CHANNEL_ASK:
        return take_byte(reader, '?');
    case CHANNEL_SIGNED:
        return take_signed(reader, order);
    case CHANNEL_SPEED:
        return take_speed(reader, order);
    case CHANNEL_MAYBE_SPEED:
        return at_end(reader) || take_speed(reader, order);
    case CHANNEL_LS:
        return take_ls(reader, order);
    case CHANNEL_MT:
        return take_mt(reader, order);
    default:
        return true;
    }
}

/* The row that ends a list is no form. STQ? is the four-motor card's; 02 §7: "On the sixteen card it is 1." */
static inline bool on_card(const struct form *form, uint32_t card)
{
    return form->verb != NO_VERB && (form->verb != READ_MOTORS_LEFT || card == FOUR_CARD);
}

/* False for a line of no form on this card. Every form has 3 to 15 bytes, so a line over 80 bytes has none. */
static bool read_order(const uint8_t *line, size_t line_size, uint32_t card, struct order *order)
{
    if (line_size < 2)
        return false;
    struct reader reader = {line, line_size, 0};
    const struct form *form = forms_from(line[0], line[1]);
    while (!begins(&reader, form))
        form++;
    if (!on_card(form, card))
        return false;
    order->form = form;
    order->in_range = true;
    reader.place = form->size;
    return take_tail(&reader, order) && at_end(&reader);
}

/* ---- Obeying an order ---- */

/* HSPD, MSPD and LSPD stand in falling order of their numbers. */
static uint32_t speed_place(uint32_t speed)
{
    return LSPD - (LSPD - MSPD) * speed;
}

/*
 * The last checks of a start. 02 §5: "Refusals, in this order, 8 to 12 for starts only". 02 §2: "a start on an unread
 * channel" is refused "after the target check", whatever switches are enabled. At the end of the range there is no
 * room, wherever a limit lies, 02 §5: "where both, 12"; short of it, only a limit can leave none. 02 §7: "a fifth start
 * is 14, after 13", so it is the last.
 */
static inline uint32_t start_refusal(const uint8_t *table, const uint8_t *motor, uint32_t direction)
{
    if (motor[SETMT_A] == 0)
        return MOTOR_DISABLED;
    if (motor[CONTACTS_KNOWN] == 0)
        return CONTACTS_UNREAD;
    if (switch_ahead(motor, direction))
        return SWITCH_ACTIVE;
    if (room(motor, direction) < 1)
        return load_signed(motor + POSITION) == range_end(direction) ? NO_ROOM_RANGE : NO_ROOM_LIMIT;
    return card_full(table) ? CARD_FULL : OK;
}

/*
 * "A start takes the selected speed, fraction 0, and clears the end flags." A stopped motor's fraction is 0 already.
 * 02 §3: under pause "an accepted start is a held drive"; byte 32 alone tells it from one that runs, and both are in
 * the busy set from here on.
 */
static uint32_t start(uint8_t *table, uint32_t channel, uint8_t direction, uint8_t kind, int32_t target)
{
    uint8_t *motor = motor_of(table, channel);
    uint32_t number = start_refusal(table, motor, direction);
    if (number != OK)
        return number;
    motor[END_FLAGS] = NO_END;
    motor[STATE] = (uint8_t)(table[PAUSE] == 0 ? direction : direction + HELD);
    motor[KIND] = kind;
    store4(motor + SPEED_IN_FORCE, load4(motor + speed_place(motor[SELECTED])));
    store4(motor + TARGET, (uint32_t)target);
    store2(table + BUSY_SET, busy_set(table) | channel_bit(channel));
    return OK;
}

/*
 * "ABS to the present position, REL 0 [...] are OK and change nothing", on an unread channel, under pause and on a full
 * card too.
 */
static uint32_t start_to(uint8_t *table, uint32_t channel, int64_t target)
{
    int32_t position = load_signed(motor_of(table, channel) + POSITION);
    if (target == position)
        return OK;
    if (target < -POSITION_MOST || target > POSITION_MOST)
        return PARAMETER_ERROR;
    return start(table, channel, target > position ? CW : CCW, TO_TARGET, (int32_t)target);
}

static uint32_t start_by(uint8_t *table, uint32_t channel, int32_t distance)
{
    return start_to(table, channel, (int64_t)load_signed(motor_of(table, channel) + POSITION) + distance);
}

/* A stop on a stopped motor is OK and changes nothing. */
static void stop(uint8_t *table, uint32_t channel, uint8_t flag)
{
    if (busy(motor_of(table, channel)))
        end_drive(table, channel, flag);
}

/* The walk is over the set as it was before the first drive ends. */
static void stop_all(uint8_t *table, uint8_t flag)
{
    for (uint32_t channel = 0, set = busy_set(table); set != 0; channel++, set >>= 1)
        if ((set & 1) != 0)
            end_drive(table, channel, flag);
}

/*
 * A motor that runs has its direction in byte 32 already. A released drive keeps the fraction 0 of its start and the
 * speed of its last SPC, so its ticks count from here.
 */
static inline void release(uint8_t *motor)
{
    motor[STATE] = (uint8_t)direction_of(motor);
}

/* 02 §3: "OFF releases all". A held drive is in the busy set already, and a released one stays there. */
static void set_pause(uint8_t *table, uint8_t pause)
{
    table[PAUSE] = pause;
    if (pause != 0)
        return;
    for (uint32_t channel = 0, set = busy_set(table); set != 0; channel++, set >>= 1)
        if ((set & 1) != 0)
            release(motor_of(table, channel));
}

/*
 * "SPC replaces the speed in force and keeps the fraction." 02 §3: "on a held motor sets its coming speed". 02 §5: "13
 * SPC on a stopped motor", whatever a start would meet there.
 */
static uint32_t change_speed(uint8_t *motor, uint32_t speed)
{
    if (!busy(motor))
        return SPC_STOPPED;
    store4(motor + SPEED_IN_FORCE, speed);
    return OK;
}

/* SPDHx, SPDMx, SPDLx "select; the same with d set". */
static void select_or_set_speed(uint8_t *motor, const struct order *order)
{
    if (order->has_speed)
        store4(motor + speed_place(order->form->detail), order->speed);
    else
        motor[SELECTED] = order->form->detail;
}

/* "Order: [...] local mode, value, busy"; 02 §5: "7 keeps local mode's place". */
static uint32_t refusal(const uint8_t *table, const uint8_t *motor, const struct order *order)
{
    if (order->form->taken >= REMOTE_ONLY && table[MODE] == LOCAL)
        return LOCAL_MODE;
    if (!order->in_range)
        return PARAMETER_ERROR;
    if (order->form->taken == REMOTE_STOPPED && busy(motor))
        return BUSY_ERROR;
    return OK;
}

/* The orders that meet checks after busy. */
static uint32_t drive(uint8_t *table, const struct order *order)
{
    uint32_t channel = order->channel;
    uint8_t detail = order->form->detail;
    switch (order->form->verb) {
    case GO_TO:
        return start_to(table, channel, order->number);
    case GO_BY:
        return start_by(table, channel, order->number);
    case JOG:
        return start_by(table, channel, detail == CW ? 1 : -1);
    case GO_SCAN:
        return start(table, channel, detail, SCAN, 0);
    default:
        return change_speed(motor_of(table, channel), order->speed);
    }
}

static uint32_t obey(uint8_t *table, uint8_t *motor, const struct order *order)
{
    uint8_t detail = order->form->detail;
    switch (order->form->verb) {
    case STOP:
        stop(table, order->channel, detail);
        return OK;
    case STOP_ALL:
        stop_all(table, detail);
        return OK;
    case SET_PLACE:
        store4(motor + detail, (uint32_t)order->number);
        return OK;
    case SELECT_OR_SET_SPEED:
        select_or_set_speed(motor, order);
        return OK;
    case SET_LS:
        motor[SETLS] = (uint8_t)order->number;
        return OK;
    case SET_MT:
        memcpy(motor + SETMT_A, order->digits, sizeof order->digits);
        return OK;
    case SET_MODE:
        table[MODE] = detail;
        return OK;
    case SET_ALL_REPLY:
        table[ALL_REPLY] = detail;
        return OK;
    case SET_PAUSE:
        set_pause(table, detail);
        return OK;
    case CLEAR_ERRORS:
        table[ERROR_FLAGS] = (uint8_t)(table[ERROR_FLAGS] & ~order->number);
        return OK;
    default:
        return drive(table, order);
    }
}

/* ---- Replies ---- */

struct text {
    uint8_t bytes[17];
    uint8_t size;
};

#define TEXT(words) {words, sizeof words - 1}

/* By text_place: numbers 0 to 3, and all others. */
static const struct text NUMBER_TEXTS[] = {
    TEXT("OK"), TEXT("COMMAND ERROR"), TEXT("MCC06 BUSY ERROR"), TEXT("PARAMETER ERROR"), TEXT("NG")
};
static const struct text OTHER_ERROR = TEXT("OTHER ERROR");
static const struct text NO_ERROR = TEXT("NO ERROR");

/* By the selected speed; by all-reply; by pause. */
static const struct text SPEED_TEXTS[] = {TEXT("LSPD"), TEXT("MSPD"), TEXT("HSPD")};
static const struct text ALL_REPLY_TEXTS[] = {TEXT("DS"), TEXT("EN")};
static const struct text PAUSE_TEXTS[] = {TEXT("OFF"), TEXT("ON")};

static const uint8_t HEX[] = "0123456789ABCDEF";
static const uint8_t STATE_LETTERS[] = "SPNSS";

static size_t write_text(uint8_t *to, const struct text *text)
{
    memcpy(to, text->bytes, text->size);
    return text->size;
}

static size_t write_hex2(uint8_t *to, uint32_t byte)
{
    to[0] = HEX[byte >> 4];
    to[1] = HEX[byte & 15];
    return 2;
}

/* 02 §6: "four hex digits". The highest is first: channel F is the 8 of the first, channel 0 the 1 of the last. */
static size_t write_busy_set(uint8_t *to, uint32_t set)
{
    return write_hex2(to, set >> 8) + write_hex2(to + 2, set & 0xff);
}

/* At least so many digits. */
static size_t write_digits(uint8_t *to, uint32_t number, size_t least)
{
    static const uint32_t ten_to[10] = {
        1, 10, 100, 1000, 10000, 100000, 1000000, 10000000, 100000000, 1000000000
    };
    size_t size = least;
    while (size < 10 && number >= ten_to[size])
        size++;
    for (size_t place = size; place > 0; number /= 10)
        to[--place] = (uint8_t)('0' + number % 10);
    return size;
}

/* "a sign (+ for 0) and at least 7 digits" */
static size_t write_place(uint8_t *to, int32_t place)
{
    to[0] = place < 0 ? '-' : '+';
    return 1 + write_digits(to + 1, (uint32_t)(place < 0 ? -place : place), 7);
}

static size_t write_ls(uint8_t *to, uint32_t byte)
{
    for (size_t place = 0; place < 8; place++)
        to[place] = (uint8_t)('0' + ((byte >> (7 - place)) & 1));
    return 8;
}

static size_t write_mt(uint8_t *to, const uint8_t *motor)
{
    for (size_t place = 0; place < 4; place++)
        to[place] = (uint8_t)('0' + motor[SETMT_A + place]);
    return 4;
}

/* 02 §2: "V shows its switch bits as 0 while unknown." */
static inline uint32_t shown_switches(const uint8_t *motor)
{
    return motor[CONTACTS_KNOWN] == 0 ? 0 : active_switches(motor);
}

/* "HH: the end flags, or 03 while driving"; 02 §3: "HH 01" while held. */
static inline uint32_t shown_end(const uint8_t *motor)
{
    if (!busy(motor))
        return motor[END_FLAGS];
    return moving(motor) ? 0x03 : 0x01;
}

static inline uint8_t mode_letter(const uint8_t *table)
{
    return table[MODE] == REMOTE ? 'R' : 'L';
}

/* 02 §7: "R or L and four less that number". Only the four-motor card has this read, so it is one digit. */
static size_t write_motors_left(uint8_t *to, const uint8_t *table)
{
    to[0] = mode_letter(table);
    to[1] = HEX[motors_left(table)];
    return 2;
}

/* "STSx?: R or L; x; P, N or S; one hex digit V; two hex digits HH; position." */
static size_t write_status(uint8_t *to, const uint8_t *table, const uint8_t *motor, uint32_t channel)
{
    uint32_t hold_off = !busy(motor) && motor[SETMT_B] == 0 ? 8 : 0;
    to[0] = mode_letter(table);
    to[1] = HEX[channel];
    to[2] = STATE_LETTERS[motor[STATE]];
    to[3] = HEX[shown_switches(motor) | hold_off];
    write_hex2(to + 4, shown_end(motor));
    return 6 + write_place(to + 6, load_signed(motor + POSITION));
}

/*
 * A command's number as a place among the texts. 02 §5: "the text stays NG and the flag bit 3, also for later command
 * numbers", so all that are left over have the last place.
 */
static inline uint32_t text_place(uint32_t number)
{
    return number <= PARAMETER_ERROR ? number : PARAMETER_ERROR + 1;
}

/* An error's text and its flag go together: the texts after OK have "error flag bits 0 to 3 in turn". */
static inline uint8_t flag_of(uint32_t number)
{
    return (uint8_t)(1u << (text_place(number) - 1));
}

/* "the lowest error's text (bit 3 is OTHER ERROR) or NO ERROR" */
static const struct text *lowest_error(uint8_t flags)
{
    for (uint32_t number = COMMAND_ERROR; number <= PARAMETER_ERROR; number++)
        if ((flags & flag_of(number)) != 0)
            return &NUMBER_TEXTS[number];
    return flags != 0 ? &OTHER_ERROR : &NO_ERROR;
}

static size_t answer(uint8_t *reply, const uint8_t *table, const uint8_t *motor, const struct order *order)
{
    uint8_t detail = order->form->detail;
    switch (order->form->verb) {
    case READ_PLACE:
        return write_place(reply, load_signed(motor + detail));
    case READ_SELECTED:
        return write_text(reply, &SPEED_TEXTS[motor[SELECTED]]);
    case READ_SPEED:
        return write_digits(reply, load4(motor + speed_place(detail)), 6);
    case READ_LS:
        return write_ls(reply, motor[SETLS]);
    case READ_MT:
        return write_mt(reply, motor);
    case READ_STATUS:
        return write_status(reply, table, motor, order->channel);
    case READ_ALL_REPLY:
        return write_text(reply, &ALL_REPLY_TEXTS[table[ALL_REPLY]]);
    case READ_PAUSE:
        return write_text(reply, &PAUSE_TEXTS[table[PAUSE]]);
    case READ_BUSY_SET:
        return write_busy_set(reply, busy_set(table));
    case READ_MOTORS_LEFT:
        return write_motors_left(reply, table);
    case READ_FLAGS:
        return write_hex2(reply, table[ERROR_FLAGS]);
    default:
        return write_text(reply, lowest_error(table[ERROR_FLAGS]));
    }
}

/* ---- One tick ---- */

static inline int64_t lesser(int64_t one, int64_t other)
{
    return one < other ? one : other;
}

/* One tick of a moving motor, whose byte 32 is its direction; its count, CW positive. At most 5,000 pulses are due. */
static int32_t tick_motor(uint8_t *table, uint32_t channel)
{
    uint8_t *motor = motor_of(table, channel);
    uint32_t direction = motor[STATE];
    uint32_t sum = load2(motor + FRACTION) + load4(motor + SPEED_IN_FORCE);
    int64_t room_left = room(motor, direction);
    int64_t distance = motor[KIND] == TO_TARGET ? target_distance(motor, direction) : INT64_MAX;
    int32_t given = (int32_t)lesser(sum / 1000, lesser(room_left, distance));
    int32_t count = direction == CW ? given : -given;
    store4(motor + POSITION, load4(motor + POSITION) + (uint32_t)count);
    if (given == distance)
        end_drive(table, channel, NO_END);
    else if (given == room_left)
        end_drive(table, channel, LSEND);
    else
        store2(motor + FRACTION, sum % 1000);
    return count;
}

/* ---- The four calls ---- */

/*
 * 02 §2: "Contacts must be unknown until the channel's first accepted reading." Contacts and byte 44 are 0. All motors
 * are stopped, so the busy set is 0 too. The card is set here and nowhere else.
 */
uint32_t model_fresh(uint8_t *table, size_t table_size, uint32_t card)
{
    if (table_size != TABLE_SIZE || card > FOUR_CARD)
        return WRONG_SIZE;
    memset(table, 0, TABLE_SIZE);
    table[CARD] = (uint8_t)card;
    for (uint32_t channel = 0; channel < MOTORS; channel++) {
        uint8_t *motor = motor_of(table, channel);
        store4(motor + CW_LIMIT, 1000000);
        store4(motor + CCW_LIMIT, (uint32_t)-1000000);
        store4(motor + HSPD, 1000);
        store4(motor + MSPD, 800);
        store4(motor + LSPD, 50);
        motor[SELECTED] = SPEED_M;
        motor[SETLS] = 0x70; /* 01110000 */
        motor[SETMT_A] = 1;
        motor[SETMT_B] = 1;
    }
    return OK;
}

uint32_t model_command(uint8_t *table, size_t table_size, const uint8_t *line, size_t line_size, uint8_t *reply,
                       size_t reply_size)
{
    if (table_size != TABLE_SIZE || reply_size < REPLY_LEAST)
        return WRONG_SIZE;
    if (!table_sound(table))
        return NOT_SOUND;
    struct order order = {0};
    uint32_t number = COMMAND_ERROR;
    if (read_order(line, line_size, table[CARD], &order)) {
        uint8_t *motor = motor_of(table, order.channel);
        if (order.form->taken == READ)
            return OK + 256 * (uint32_t)answer(reply, table, motor, &order);
        number = refusal(table, motor, &order);
        if (number == OK)
            number = obey(table, motor, &order);
    }
    if (number != OK)
        table[ERROR_FLAGS] |= flag_of(number);
    if (table[ALL_REPLY] == 0)
        return number;
    return number + 256 * (uint32_t)write_text(reply, &NUMBER_TEXTS[text_place(number)]);
}

/* "A switch reading replaces the contacts." With it they are known, also where all are open: 02 §2, "1 read". */
uint32_t model_reading(uint8_t *table, size_t table_size, uint32_t channel, uint32_t contacts)
{
    if (table_size != TABLE_SIZE || channel >= MOTORS || contacts > ALL_CONTACTS)
        return WRONG_SIZE;
    if (!table_sound(table))
        return NOT_SOUND;
    uint8_t *motor = motor_of(table, channel);
    motor[CONTACTS] = (uint8_t)contacts;
    motor[CONTACTS_KNOWN] = 1;
    if (switch_ahead(motor, direction_of(motor)))
        end_drive(table, channel, LSEND);
    return OK;
}

/* A held drive is in the busy set, "but gets no pulses", 02 §3. The walk is over the set as it was before the tick. */
uint32_t model_tick(uint8_t *table, size_t table_size, uint8_t *pulses, size_t pulses_size)
{
    if (table_size != TABLE_SIZE || pulses_size != PULSES_SIZE)
        return WRONG_SIZE;
    if (!table_sound(table))
        return NOT_SOUND;
    memset(pulses, 0, PULSES_SIZE);
    for (uint32_t channel = 0, set = busy_set(table); set != 0; channel++, set >>= 1)
        if ((set & 1) != 0 && moving(motor_of(table, channel)))
            store4(pulses + 4 * channel, (uint32_t)tick_motor(table, channel));
    return OK;
}
