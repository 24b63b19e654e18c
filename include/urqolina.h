/*
 * Urqolina: the pulse controller of a sixteen-axis bench, for C firmware.
 *
 * Four calls over memory that the host owns. Each takes any bytes, any lengths and any numbers, judges all of them
 * before it writes anything, and answers a number. A call keeps nothing between calls, allocates nothing and calls
 * nothing outside the library. Each is proved, for all inputs, to leave in every buffer what its definition in
 * crates/urqolina/specs/Calls.antt says.
 *
 * What the host sees to, since no call can check it:
 *   - Every pointer is to as many bytes as the length beside it says, readable, and writable where it is not const.
 *   - A pointer is never null, also where its length is 0: an empty line may be passed with any pointer that is not
 *     null, such as "". Its byte is not read.
 *   - The buffers of one call do not overlap.
 *   - One call at a time on one table. Calls on different tables share nothing and may run at the same time.
 *   - Between calls nothing else writes to the table. A host that restores a table it kept may do so: a table that is
 *     not sound is answered 6.
 */
#ifndef URQOLINA_H
#define URQOLINA_H

#include <stddef.h>
#include <stdint.h>

#ifdef __cplusplus
extern "C" {
#endif

/*
 * At power-up. A fresh table knows nothing of the switches: the contacts of a channel are unknown until its first
 * accepted reading, and until then no start moves its motor (9). So after urqolina_fresh, and after restoring a table
 * that was kept, read the switches of all sixteen channels before the first start, those without switches too:
 *
 *   urqolina_fresh(table, sizeof table, URQOLINA_CARD_16);
 *   for (uint32_t channel = 0; channel < URQOLINA_CHANNELS; channel++)
 *       urqolina_reading(table, sizeof table, channel, contacts_of(channel));
 *
 * where contacts_of is the host's own, and the card is the bench's (below). A reading is taken in local mode too, and
 * one of open contacts is one. Nothing but urqolina_fresh makes contacts unknown again. Afterwards, read a channel
 * whenever a contact of it changes.
 */

/*
 * Which library this header is of, and which table. The first is one higher with every change that a host can notice,
 * the second where the bytes of the table have come to mean something else. A host that keeps a table over an update
 * keeps the second with it, and makes a fresh table where it is not the same.
 *   version 1: document 01
 *   version 2: where a line takes a signed number, one without a sign means plus: ABS0100 is ABS0+100
 *   version 3: a start on a channel whose switches were not read since fresh is refused; its status shows no switch as active
 *   version 4: PAUSE ON, PAUSE OFF and PAUSE?, and drives that are held between them
 *   version 5: 4 is no longer given; 7 to 13 stand in its place, one for each cause, and all else is as it was. New is
 *              urqolina_advice
 *   version 6: the set of busy channels in the table, and BSY?, which answers it. New is urqolina_busy
 *   version 7: urqolina_fresh takes the card: the sixteen-motor card, which is as before, or the four-motor card, on
 *              which a start is 14 while four motors are busy, and which has STQ?. A host that was compiled with an
 *              earlier header passes no card, and is compiled anew. New are urqolina_card and urqolina_free_motors
 *   layout 1: a head of 64 bytes and sixteen records of 64, as document 01 has them
 *   layout 2: byte 44 of a record is 0 while its contacts are unknown, and byte 26 then is 0 too, or 1 once they are
 *             read. Of the tables of layout 1, one with a closed contact or a driving motor is answered 6, and the
 *             others are taken as unread
 *   layout 3: byte 3 of the head is 1 while pause is on, and byte 32 of a record is 3 (CW) or 4 (CCW) while its drive is
 *             held. Every table of layout 2 means the same in this one
 *   layout 4: bytes 4 and 5 of the head are the set of busy channels, low byte first. Of the tables of layout 3, one with
 *             a driving or held motor is answered 6, and every other means the same
 *   layout 5: byte 6 of the head is the card, 0 sixteen or 1 four. Every table of layout 4 means the same in this one:
 *             it is of the sixteen-motor card
 */
#define URQOLINA_VERSION 7
#define URQOLINA_LAYOUT 5

/*
 * Motors that leave together. After PAUSE ON an accepted start is held: the channel is busy, and no tick moves it or counts
 * for it. PAUSE OFF releases every held drive, and the next tick is the first of each of them. What runs when PAUSE ON comes
 * runs on.
 *   REM, PAUSE ON, REL0+4, REL1-4, PAUSE OFF
 * A held channel has the status S with HH 01 (STS0? is R0S001+0000000), is answered 2 to starts and settings, takes SPC for
 * its coming speed, and ends by a stop or by the switch of its direction as a driving one does. Pause and held drives last
 * through LOC, where PAUSE OFF is 7: a host that goes to local mode stops what it has held, or comes back to release it.
 * They are in the table too: one that is kept and restored holds what it held until PAUSE OFF or its end. PAUSE? tells.
 */

/*
 * Which motors are busy. The table keeps the set, so that the host need not walk sixteen records at each tick to learn which
 * drive: urqolina_busy reads it, bit c for channel c, and BSY? answers it in four hex digits, channel F in the first and
 * channel 0 in the last. After every call that answers neither 5 nor 6 it is true: a channel is in it from its accepted start
 * on, held or driving, until the call that ends its drive, be that a stop, a reading or a tick. So after the tick of its last
 * pulses a channel is no longer busy, while those pulses stand in the pulse buffer. A host that looks at the counts of busy
 * channels alone takes the set before the tick:
 *   uint16_t busy = urqolina_busy(table);
 *   urqolina_tick(table, sizeof table, pulses, sizeof pulses);
 * The host reads the set and never writes it: a table in which it is not true is answered 6. It is read between calls, since
 * in the midst of one its two bytes and the records need not agree; where ticks are taken in an interrupt, it is read there
 * or with that interrupt held off.
 */

/*
 * The four-motor card. A bench with a PM16C-04XD makes its table with URQOLINA_CARD_4, one with a PM16C-16 with
 * URQOLINA_CARD_16. Both cards have sixteen channels, which are set, read and stopped alike, but the first runs four
 * motors at most: any four of the sixteen, and a held one takes its place from its start on. While four are busy, a
 * start of another motor that nothing else refuses is 14, unless it moves nothing (ABS to the present position, REL 0).
 * A place is free again after the call that ends a drive, be that a stop, a reading or a tick, and the next line may
 * take it.
 *   STQ? answers R or L and how many more motors may start, R4 with none busy and R0 with four, in both modes. On the
 * sixteen-motor card there is no such line (1). urqolina_free_motors tells it of either card, without a call.
 *   The card is byte 6 of the head. Nothing but urqolina_fresh writes it, so a table that is kept carries its card: a
 * host that restores one asks urqolina_card whether it is of the card that the bench has now. The host never writes it
 * either: a table of the four-motor card with five busy motors is answered 6.
 */

/* The cards. */
#define URQOLINA_CARD_16 0u   /* sixteen motors at a time */
#define URQOLINA_CARD_4 1u    /* four motors at a time, of sixteen channels */

/* The sizes of the buffers, in bytes. */
#define URQOLINA_TABLE_SIZE 1088u  /* the table, exactly */
#define URQOLINA_REPLY_SIZE 32u    /* the reply buffer, at least; no reply is longer than 17 bytes */
#define URQOLINA_PULSES_SIZE 64u   /* the pulse buffer, exactly: sixteen signed 32-bit counts, low byte first */
#define URQOLINA_LINE_MOST 80u     /* a line over 80 bytes is answered 1 */
#define URQOLINA_CHANNELS 16u
#define URQOLINA_CONTACTS_MOST 7u  /* closed = 1: bit 0 CW, bit 1 CCW, bit 2 HP */

/*
 * The numbers that a call hands back; 4 is no longer one of them. 7 to 14 all have the text NG and the error flag 8,
 * and so will later ones: the number tells which it is. Where several causes hold, a start is answered the lowest of 8
 * to 12 and 14, but for 11 and 12: at the end of the range it is 12, whatever the limits are. ABS to the present
 * position and REL 0 move nothing, and meet none of these.
 */
enum {
    URQOLINA_OK = 0,                /* done */
    URQOLINA_COMMAND_ERROR = 1,     /* the line has no form; nor has STQ? on the sixteen-motor card */
    URQOLINA_BUSY = 2,              /* a start, setting or speed selection of a driving or held channel */
    URQOLINA_PARAMETER = 3,         /* the form is right, a value is outside its range */
    URQOLINA_WRONG_SIZE = 5,        /* a buffer of the wrong size, a channel over 15, contacts over 7, a card over 1 */
    URQOLINA_NOT_SOUND = 6,         /* the table is not sound */
    URQOLINA_LOCAL_MODE = 7,        /* local mode, and a line that only remote mode takes */
    URQOLINA_MOTOR_DISABLED = 8,    /* a start with A = 0 in SETMT */
    URQOLINA_SWITCHES_UNREAD = 9,   /* a start on a channel whose switches were not read since fresh */
    URQOLINA_SWITCH_AHEAD = 10,     /* a start towards a switch that is active and enabled */
    URQOLINA_AT_DIGITAL_LIMIT = 11, /* a start at the digital limit of its direction or past it, with D = 1 in SETLS */
    URQOLINA_AT_RANGE_END = 12,     /* a scan at the end of the range: CW at +2147483647, CCW at -2147483647 */
    URQOLINA_MOTOR_STOPPED = 13,    /* SPC on a motor that stands stopped */
    URQOLINA_FOUR_BUSY = 14         /* a start on the four-motor card while four motors are busy, driving or held */
};

/* A command's result is the number plus 256 times the length of the reply. The other calls' result is the number. */
#define URQOLINA_NUMBER(result) ((result) & 0xffu)
#define URQOLINA_REPLY_LENGTH(result) ((result) >> 8)

/*
 * Makes a fresh table of a card, URQOLINA_CARD_16 or URQOLINA_CARD_4, whatever the bytes were.
 *   0  the table is fresh, and byte 6 of its head is the card. The contacts of all channels are unknown: the switches
 *      are to be read next
 *   5  the table has the wrong size, or there is no such card; no byte is written
 */
uint32_t urqolina_fresh(uint8_t *table, size_t table_size, uint32_t card);

/*
 * Takes one command line, without CR LF. The line is any bytes; it need not end in a zero.
 *   0        the table is changed as the command says; the reply is written
 *   1, 2, 3  error flag 1, 2 or 4 is set in byte 2 of the table, and nothing else in it is changed; the number's text is
 *            the reply if all-reply is on
 *   7 on     the same with error flag 8 and the text NG
 *   5, 6     no byte of any buffer is written
 * The reply stands at the front of the reply buffer, without a zero after it; the bytes past it stay as they were.
 */
uint32_t urqolina_command(uint8_t *table, size_t table_size, const uint8_t *line, size_t line_size, uint8_t *reply,
                          size_t reply_size);

/*
 * Takes one reading of a channel's switches.
 *   0     the contacts are in the channel's record and known from now on, and its drive is ended if the switch of its
 *         direction is now active and enabled
 *   5, 6  no byte is written
 */
uint32_t urqolina_reading(uint8_t *table, size_t table_size, uint32_t channel, uint32_t contacts);

/*
 * Takes one tick, a millisecond.
 *   0     every driving channel that is not held has moved; the pulse buffer holds a count for each channel, CW positive,
 *         0 for a motor that stands stopped or is held when the tick comes
 *   5, 6  no tick: no byte is written, and no pulse is given
 */
uint32_t urqolina_tick(uint8_t *table, size_t table_size, uint8_t *pulses, size_t pulses_size);

/* The count of a channel, 0 to 15, in a pulse buffer. A count lies within -5000 and +5000. */
static inline int32_t urqolina_count(const uint8_t *pulses, uint32_t channel)
{
    const uint8_t *p = pulses + 4u * channel;
    uint32_t word = (uint32_t)p[0] | (uint32_t)p[1] << 8 | (uint32_t)p[2] << 16 | (uint32_t)p[3] << 24;
    return word < 0x80000000u ? (int32_t)word : -(int32_t)(0xffffffffu - word) - 1;
}

/* The set of busy channels, driving or held, of a table between calls: channel c is bit c. */
static inline uint16_t urqolina_busy(const uint8_t *table)
{
    return (uint16_t)((uint32_t)table[4] | (uint32_t)table[5] << 8);
}

/* The card of a table, URQOLINA_CARD_16 or URQOLINA_CARD_4. */
static inline uint32_t urqolina_card(const uint8_t *table)
{
    return table[6];
}

/* How many more motors may start on the card of a table between calls: sixteen or four, less those that are busy. */
static inline uint32_t urqolina_free_motors(const uint8_t *table)
{
    uint32_t left = urqolina_card(table) == URQOLINA_CARD_4 ? 4u : 16u;
    for (uint32_t busy = urqolina_busy(table); busy != 0 && left != 0; busy >>= 1)
        left -= busy & 1u;
    return left;
}

/*
 * What a number tells, and what to do about it: a sentence for the people at the bench. Of a command's result it takes
 * URQOLINA_NUMBER(result).
 */
static inline const char *urqolina_advice(uint32_t number)
{
    switch (number) {
    case URQOLINA_OK:
        return "done";
    case URQOLINA_COMMAND_ERROR:
        return "there is no such command: look for small letters, blanks, and digits or signs too many or too few; "
               "STQ? is the four-motor card's alone";
    case URQOLINA_BUSY:
        return "the motor is driving or held: stop it, or wait until it stands; PAUSE OFF releases what is held";
    case URQOLINA_PARAMETER:
        return "a number or the target is out of range: positions reach 2147483647 either way, speeds go from 1 to 5000000; "
               "the digits of SETLS, SETMT and ERRC have ranges of their own";
    case URQOLINA_WRONG_SIZE:
        return "a buffer has the wrong size, or there is no such channel, contact or card: mend the host's call";
    case URQOLINA_NOT_SOUND:
        return "the table is damaged: restore one that was kept, or make it fresh and read all switches; a fresh one has "
               "lost its positions and settings";
    case URQOLINA_LOCAL_MODE:
        return "the controller is in local mode: send REM first";
    case URQOLINA_MOTOR_DISABLED:
        return "the motor is disabled: send SETMT with A = 1";
    case URQOLINA_SWITCHES_UNREAD:
        return "the switches of this channel were not read yet: read them first";
    case URQOLINA_SWITCH_AHEAD:
        return "the switch ahead is active: drive the other way, or free the switch; where nothing is on it, look at its "
               "wire and at its polarity in SETLS";
    case URQOLINA_AT_DIGITAL_LIMIT:
        return "the digital limit is reached: drive the other way, set the limit further out with FL or BL, or send SETLS "
               "with D = 0 and its other digits as they are";
    case URQOLINA_AT_RANGE_END:
        return "the position is at the end of its range: drive the other way, or preset the position with PS";
    case URQOLINA_MOTOR_STOPPED:
        return "the motor stands stopped, and SPC changes the speed of a drive: start it first";
    case URQOLINA_FOUR_BUSY:
        return "four motors are driving or held, and the four-motor card runs no more: stop one, or wait until one "
               "stands; BSY? tells which they are";
    default:
        return "this header does not know the number: are header and library of one version?";
    }
}

#ifdef __cplusplus
}
#endif

#endif
