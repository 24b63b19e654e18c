/*
 * The steps of the tour: for each number of each kind of call, and for each cause that the documents have for it, a call that
 * gives it. differ ends a run in which a number of tour_numbers has no step, so a number that is added there needs one here.
 */
#include "tour.h"

#include <string.h>

#define NUMBER(n) (UINT32_C(1) << (n))

const uint32_t tour_numbers[CALLS] = {
    [FRESH] = NUMBER(0) | NUMBER(5),
    [COMMAND] = NUMBER(0) | NUMBER(1) | NUMBER(2) | NUMBER(3) | NUMBER(5) | NUMBER(6) | NUMBER(7) | NUMBER(8) | NUMBER(9) | NUMBER(10)
                | NUMBER(11) | NUMBER(12) | NUMBER(13) | NUMBER(14),
    [READING] = NUMBER(0) | NUMBER(5) | NUMBER(6),
    [TICK] = NUMBER(0) | NUMBER(5) | NUMBER(6),
};

/* What comes before: channels 0 to 3 and E read, in remote mode; three busy; four: moving, held, and two of each. */
#define FIVE_READ "S 0 0;S 1 0;S 2 0;S 3 0;S E 0;REM"
#define THREE_MOVING FIVE_READ ";SCANP0;SCANN1;ABS2+9"
#define THREE_HELD FIVE_READ ";PAUSE ON;SCANP0;SCANN1;ABS2+9"
#define FOUR_MOVING THREE_MOVING ";JOGP3"
#define FOUR_HELD THREE_HELD ";JOGP3"
#define FOUR_MIXED FIVE_READ ";SCANP0;SCANN1;PAUSE ON;ABS2+9;JOGP3"
/* Four busy in the high byte of the set, or in both, and a fifth channel read; five, in the low byte or both; fifteen. */
#define FOUR_HIGH "S 8 0;S A 0;S C 0;S F 0;S 0 0;REM;SCANP8;SCANPA;SCANPC;SCANPF"
#define FOUR_SPREAD "S 4 0;S 7 0;S 8 0;S F 0;S 5 0;REM;SCANP4;SCANP7;SCANP8;SCANPF"
#define FIVE_SPREAD FOUR_SPREAD ";SCANN5"
#define FIVE_MOVING "S 0 0;S 1 0;S 2 0;S 3 0;S 4 0;REM;SCANP0;SCANP1;SCANP2;SCANP3;SCANP4"
#define FIVE_HELD "S 0 0;S 1 0;S 2 0;S 3 0;S 4 0;REM;PAUSE ON;SCANP0;SCANP1;SCANP2;SCANP3;SCANP4"
#define ALL_READ "S 0 0;S 1 0;S 2 0;S 3 0;S 4 0;S 5 0;S 6 0;S 7 0;S 8 0;S 9 0;S A 0;S B 0;S C 0;S D 0;S E 0;S F 0;REM"
#define FIFTEEN_MOVING \
    ALL_READ ";SCANP0;SCANP1;SCANP2;SCANP3;SCANP4;SCANP5;SCANP6;SCANP7;SCANP8;SCANP9;SCANPA;SCANPB;SCANPC;SCANPD;SCANPE"

enum { SIXTEEN, FOUR };
/* Head byte 6, which is the card. */
enum { CARD = 6 };

const struct step tour[] = {
    {.kind = FRESH, .number = 0},
    {.kind = FRESH, .number = 5, .table = -1},
    {.kind = FRESH, .number = 5, .table = 1},
    /* each card, on a table of the same one and of the other, busy ones too, and on bytes that are none */
    {.kind = FRESH, .number = 0, .wanted = FOUR},
    {.kind = FRESH, .number = 0, .card = FOUR, .wanted = FOUR},
    {.kind = FRESH, .number = 0, .card = FOUR, .wanted = SIXTEEN},
    {.kind = FRESH, .number = 0, .card = FOUR, .before = FOUR_MIXED, .wanted = SIXTEEN},
    {.kind = FRESH, .number = 0, .before = FIVE_MOVING, .wanted = FOUR},
    {.kind = FRESH, .number = 0, .wanted = SIXTEEN, .at = CARD, .byte = 255},
    {.kind = FRESH, .number = 0, .wanted = FOUR, .at = CARD, .byte = 2},
    /* no card, on either: one too many, and what fewer bits would cut to a card */
    {.kind = FRESH, .number = 5, .wanted = 2},
    {.kind = FRESH, .number = 5, .card = FOUR, .wanted = 2},
    {.kind = FRESH, .number = 5, .wanted = 3},
    {.kind = FRESH, .number = 5, .wanted = 255},
    {.kind = FRESH, .number = 5, .wanted = 256},
    {.kind = FRESH, .number = 5, .card = FOUR, .before = FOUR_MOVING, .wanted = 256},
    {.kind = FRESH, .number = 5, .wanted = 257},
    {.kind = FRESH, .number = 5, .card = FOUR, .wanted = 65536},
    {.kind = FRESH, .number = 5, .wanted = 65537},
    {.kind = FRESH, .number = 5, .wanted = 2147483648},
    {.kind = FRESH, .number = 5, .card = FOUR, .wanted = 2147483649},
    {.kind = FRESH, .number = 5, .before = FIVE_MOVING, .wanted = 4294967295},
    /* a wrong size, whatever the card */
    {.kind = FRESH, .number = 5, .wanted = FOUR, .table = -1},
    {.kind = FRESH, .number = 5, .wanted = FOUR, .table = 1},
    {.kind = FRESH, .number = 5, .card = FOUR, .wanted = SIXTEEN, .table = -1},
    {.kind = FRESH, .number = 5, .wanted = 2, .table = -1},
    {.kind = FRESH, .number = 5, .card = FOUR, .wanted = 2, .table = 1},

    {.kind = COMMAND, .number = 0, .line = "STS0?"},
    {.kind = COMMAND, .number = 0, .before = "S 0 0;REM", .line = "ABS0+100"},
    /* a bare number, in a start and in a setting, of ten digits too */
    {.kind = COMMAND, .number = 0, .before = "S 0 0;REM", .line = "ABS0100"},
    {.kind = COMMAND, .number = 0, .before = "REM", .line = "FL00000000250"},
    /* on a channel that was not read, what does not move the motor; and V, with every switch N.C., and with B = 0 */
    {.kind = COMMAND, .number = 0, .before = "REM", .line = "REL0+0"},
    {.kind = COMMAND, .number = 0, .before = "REM", .line = "ABS0+0"},
    {.kind = COMMAND, .number = 0, .before = "REM;SETLS001110111", .line = "STS0?"},
    {.kind = COMMAND, .number = 0, .before = "REM;SETLS001110111;SETMT01000", .line = "STS0?"},
    /* once read it stays so: after a stop, after SETLS, in local mode */
    {.kind = COMMAND, .number = 0, .before = "S 0 0;REM;SCANP0;ESTP0", .line = "SCANN0"},
    {.kind = COMMAND, .number = 0, .before = "S 0 0;REM;SETLS000000000", .line = "SCANP0"},
    {.kind = COMMAND, .number = 0, .before = "S 0 1;REM", .line = "SCANN0"},
    /* pause: its lines, repeated too; what starts under it is held, but for what does not move the motor; what runs runs on */
    {.kind = COMMAND, .number = 0, .line = "PAUSE?"},
    {.kind = COMMAND, .number = 0, .before = "REM", .line = "PAUSE ON"},
    {.kind = COMMAND, .number = 0, .before = "S 0 0;REM;PAUSE ON;SCANP0", .line = "PAUSE ON"},
    {.kind = COMMAND, .number = 0, .before = "REM;PAUSE ON;LOC", .line = "PAUSE?"},
    {.kind = COMMAND, .number = 0, .before = "S 0 0;S 1 0;REM;SCANP1;PAUSE ON", .line = "ABS0-3"},
    {.kind = COMMAND, .number = 0, .before = "S 0 0;REM;PAUSE ON", .line = "JOGN0"},
    {.kind = COMMAND, .number = 0, .before = "S 0 0;REM;PAUSE ON", .line = "REL0+0"},
    {.kind = COMMAND, .number = 0, .before = "S 0 0;S 1 0;S F 0;REM;SCANP1;PAUSE ON;SCANN0;RELF+5", .line = "PAUSE OFF"},
    {.kind = COMMAND, .number = 0, .before = "REM", .line = "PAUSE OFF"},
    /* a held motor: its status, with B = 0 too; SPC, and its release; stops, in local mode too; and its start after one */
    {.kind = COMMAND, .number = 0, .before = "S 0 0;REM;PAUSE ON;SCANP0", .line = "STS0?"},
    {.kind = COMMAND, .number = 0, .before = "S 0 2;REM;SETMT01000;PAUSE ON;SCANP0;LOC", .line = "STS0?"},
    {.kind = COMMAND, .number = 0, .before = "S 0 0;REM;PAUSE ON;SCANP0", .line = "SPC0400"},
    {.kind = COMMAND, .number = 0, .before = "S 0 0;REM;PAUSE ON;SCANP0;SPC0400", .line = "PAUSE OFF"},
    {.kind = COMMAND, .number = 0, .before = "S 0 0;REM;PAUSE ON;SCANP0;LOC", .line = "SSTP0"},
    {.kind = COMMAND, .number = 0, .before = "S 0 0;S 1 0;REM;SCANP1;PAUSE ON;SCANN0", .line = "AESTP"},
    {.kind = COMMAND, .number = 0, .before = "S 0 0;REM;PAUSE ON;SCANP0;ESTP0", .line = "SCANN0"},
    /* the busy set: none in it; channels of either byte, started, held and released; what starts nothing; every end of a drive; LOC */
    {.kind = COMMAND, .number = 0, .line = "BSY?"},
    {.kind = COMMAND, .number = 0, .before = "S 0 0;REM;SCANP0", .line = "BSY?"},
    {.kind = COMMAND, .number = 0, .before = "S 0 0;S 3 0;S F 0;REM;REL0+1;SCANP3;PAUSE ON;SCANNF", .line = "BSY?"},
    {.kind = COMMAND, .number = 0, .before = "S 9 0;S B 0;REM;PAUSE ON;SCANN9;SCANPB;PAUSE OFF", .line = "BSY?"},
    {.kind = COMMAND, .number = 0, .before = "S 0 0;REM;REL0+0;ABS0+0;SSTP0", .line = "BSY?"},
    {.kind = COMMAND, .number = 0, .before = "S 0 0;S B 0;REM;REL0+1;SCANPB;T 2", .line = "BSY?"},
    {.kind = COMMAND, .number = 0, .before = "S 0 0;REM;SETLS011110000;FL0+1;SCANP0;T 2", .line = "BSY?"},
    {.kind = COMMAND, .number = 0, .before = "S 0 0;S 8 0;REM;SCANP0;SCANP8;S 8 1", .line = "BSY?"},
    {.kind = COMMAND, .number = 0, .before = "S 0 0;S 1 0;REM;SCANP0;PAUSE ON;SCANN1;ESTP1;SSTP0", .line = "BSY?"},
    {.kind = COMMAND, .number = 0, .before = "S 0 0;S 1 0;REM;SCANP0;PAUSE ON;SCANN1;ASSTP", .line = "BSY?"},
    {.kind = COMMAND, .number = 0, .before = "S 2 0;REM;ALL_REP EN;SCANP2;LOC", .line = "BSY?"},
    /* no form: a byte that is none of it, no number, two signs, eleven digits, a sign where none may stand; and over 80 bytes */
    {.kind = COMMAND, .number = 1, .line = "ABS0+10z"},
    {.kind = COMMAND, .number = 1, .before = "REM", .line = "ABS0"},
    {.kind = COMMAND, .number = 1, .before = "REM", .line = "ABS0+-5"},
    {.kind = COMMAND, .number = 1, .before = "REM", .line = "FL000000000250"},
    {.kind = COMMAND, .number = 1, .before = "S 0 0;REM;SCANP0", .line = "SPC0+400"},
    {.kind = COMMAND, .number = 1, .before = "REM",
     .line = "SPDM0000000000000000000000000000000000000000000000000000000000000000000000000000800"},
    /* of pause: no blank, two, none after the word, letters too few and too many */
    {.kind = COMMAND, .number = 1, .before = "REM", .line = "PAUSE"},
    {.kind = COMMAND, .number = 1, .before = "REM", .line = "PAUSEON"},
    {.kind = COMMAND, .number = 1, .before = "REM", .line = "PAUSE  ON"},
    {.kind = COMMAND, .number = 1, .before = "REM", .line = "PAUSE OF"},
    {.kind = COMMAND, .number = 1, .before = "REM", .line = "PAUSE OFFF"},
    {.kind = COMMAND, .number = 1, .before = "REM", .line = "PAUSE ?"},
    /* of the busy set: a channel, a blank, no question mark, small letters */
    {.kind = COMMAND, .number = 1, .line = "BSY?0"},
    {.kind = COMMAND, .number = 1, .before = "REM", .line = "BSY? "},
    {.kind = COMMAND, .number = 1, .before = "REM", .line = "BSY"},
    {.kind = COMMAND, .number = 1, .before = "REM", .line = "BSY "},
    {.kind = COMMAND, .number = 1, .before = "REM", .line = "bsy?"},
    /* a start, a setting and a selection of a driving channel, and of a held one, where what would not move it is busy too */
    {.kind = COMMAND, .number = 2, .before = "S 0 0;REM;SCANP0", .line = "SCANP0"},
    {.kind = COMMAND, .number = 2, .before = "S 0 0;REM;SCANP0", .line = "PS0+1"},
    {.kind = COMMAND, .number = 2, .before = "S 0 0;REM;SCANP0", .line = "SPDH0"},
    {.kind = COMMAND, .number = 2, .before = "S 0 0;REM;PAUSE ON;REL0+3", .line = "SCANP0"},
    {.kind = COMMAND, .number = 2, .before = "S 0 0;REM;PAUSE ON;REL0+3", .line = "REL0+0"},
    {.kind = COMMAND, .number = 2, .before = "S 0 0;REM;PAUSE ON;REL0+3", .line = "ABS0+0"},
    {.kind = COMMAND, .number = 2, .before = "S 0 0;REM;PAUSE ON;REL0+3", .line = "SETMT01100"},
    {.kind = COMMAND, .number = 2, .before = "S 0 0;REM;PAUSE ON;REL0+3", .line = "SPDL0"},
    /* a value out of its range, and a target */
    {.kind = COMMAND, .number = 3, .before = "REM", .line = "SPDM05000001"},
    {.kind = COMMAND, .number = 3, .before = "REM", .line = "PS02147483648"},
    {.kind = COMMAND, .number = 3, .before = "REM", .line = "SETMT02100"},
    {.kind = COMMAND, .number = 3, .before = "REM", .line = "SETMT01200"},
    {.kind = COMMAND, .number = 3, .before = "REM", .line = "SETMT01110"},
    {.kind = COMMAND, .number = 3, .before = "REM", .line = "SETMT01103"},
    {.kind = COMMAND, .number = 3, .before = "REM", .line = "SETLS021110000"},
    {.kind = COMMAND, .number = 3, .before = "REM", .line = "SETLS001110002"},
    {.kind = COMMAND, .number = 3, .before = "REM;PS0+2147483647", .line = "REL0+1"},
    {.kind = COMMAND, .number = 3, .before = "REM;PS0+2147483647", .line = "JOGP0"},
    /* local mode, before the value: starts that would not move the motor, settings, SPC, all-reply, pause; with a held motor too */
    {.kind = COMMAND, .number = 7, .before = "S 0 0", .line = "SCANP0"},
    {.kind = COMMAND, .number = 7, .line = "PS0+9999999999"},
    {.kind = COMMAND, .number = 7, .line = "REL0+0"},
    {.kind = COMMAND, .number = 7, .line = "SPC00"},
    {.kind = COMMAND, .number = 7, .line = "SPDH0"},
    {.kind = COMMAND, .number = 7, .line = "PAUSE ON"},
    {.kind = COMMAND, .number = 7, .before = "S 0 0;REM;PAUSE ON;SCANP0;LOC", .line = "PAUSE OFF"},
    {.kind = COMMAND, .number = 7, .before = "S 0 0;REM;SCANP0;LOC", .line = "SPC0400"},
    {.kind = COMMAND, .number = 7, .before = "REM;ALL_REP EN;LOC", .line = "ALL_REP DS"},
    /* A = 0, before all that lies in the motor besides: not read, an active switch, the end of the range; after the target's range */
    {.kind = COMMAND, .number = 8, .before = "S 0 0;REM;SETMT00100", .line = "SCANP0"},
    {.kind = COMMAND, .number = 8, .before = "REM;SETMT00100;SETLS001110001;PS0+2147483647", .line = "SCANP0"},
    {.kind = COMMAND, .number = 3, .before = "REM;SETMT00100;PS0+2147483647", .line = "REL0+1"},
    {.kind = COMMAND, .number = 0, .before = "REM;SETMT00100;PS0+2147483647", .line = "REL0+0"},
    {.kind = COMMAND, .number = 0, .before = "S 0 7;REM;SETMT00100;PS0-2147483647", .line = "ABS0-2147483647"},
    /* contacts not read, whatever is enabled, active or at its end; another channel's reading does not count */
    {.kind = COMMAND, .number = 9, .before = "REM", .line = "SCANP0"},
    {.kind = COMMAND, .number = 9, .before = "S 1 0;REM;SETLS000000000", .line = "SCANN0"},
    {.kind = COMMAND, .number = 9, .before = "REM;SETLS001110001;PS0+2147483647", .line = "SCANP0"},
    {.kind = COMMAND, .number = 9, .before = "REM;PAUSE ON", .line = "SCANP0"},
    /* an active enabled switch ahead, N.O. and N.C., at the end of the range too */
    {.kind = COMMAND, .number = 10, .before = "S 0 0;REM;SETLS001110001", .line = "SCANP0"},
    {.kind = COMMAND, .number = 10, .before = "S 0 1;REM", .line = "JOGP0"},
    {.kind = COMMAND, .number = 10, .before = "S 0 2;REM;PS0-2147483647", .line = "SCANN0"},
    {.kind = COMMAND, .number = 10, .before = "S 0 1;REM;PAUSE ON", .line = "SCANP0"},
    /* no room because of a digital limit: at it, past it, either way, each start; at the other end of the range */
    {.kind = COMMAND, .number = 11, .before = "S 0 0;REM;SETLS011110000;FL0+0", .line = "SCANP0"},
    {.kind = COMMAND, .number = 11, .before = "S 0 0;REM;SETLS011110000;FL0+5;PS0+8", .line = "ABS0+9"},
    {.kind = COMMAND, .number = 11, .before = "S 0 0;REM;SETLS011110000;FL0+5;PS0+5", .line = "REL0+1"},
    {.kind = COMMAND, .number = 11, .before = "S 0 0;REM;SETLS011110000;BL0+5", .line = "JOGN0"},
    {.kind = COMMAND, .number = 11, .before = "S 0 0;REM;SETLS011110000;FL0-2147483647;PS0-2147483647", .line = "SCANP0"},
    {.kind = COMMAND, .number = 0, .before = "S 0 0;REM;SETLS011110000;FL0+5;PS0+8", .line = "SCANN0"},
    /* because of the end of the range: with the limits off, and on, wherever they lie; JOG and REL past it have no target there */
    {.kind = COMMAND, .number = 12, .before = "S 0 0;REM;PS0+2147483647", .line = "SCANP0"},
    {.kind = COMMAND, .number = 12, .before = "S 0 0;REM;PS0-2147483647", .line = "SCANN0"},
    {.kind = COMMAND, .number = 12, .before = "S 0 0;REM;SETLS011110000;PS0+2147483647", .line = "SCANP0"},
    {.kind = COMMAND, .number = 12, .before = "S 0 0;REM;SETLS011110000;FL0+2147483647;PS0+2147483647", .line = "SCANP0"},
    {.kind = COMMAND, .number = 12, .before = "S 0 0;REM;SETLS011110000;BL0+7;PS0-2147483647;PAUSE ON", .line = "SCANN0"},
    {.kind = COMMAND, .number = 3, .before = "S 0 0;REM;SETLS011110000;PS0+2147483647", .line = "JOGP0"},
    /* SPC on a stopped motor, whatever A, contacts and room are; its value comes first */
    {.kind = COMMAND, .number = 13, .before = "REM", .line = "SPC0400"},
    {.kind = COMMAND, .number = 13, .before = "REM;SETMT00100;PS0+2147483647", .line = "SPC0400"},
    {.kind = COMMAND, .number = 13, .before = "S 0 0;REM;PAUSE ON;SCANP0;ESTP0", .line = "SPC0400"},
    {.kind = COMMAND, .number = 3, .before = "REM", .line = "SPC00"},
    {.kind = COMMAND, .number = 5, .line = "REM", .table = -1},
    {.kind = COMMAND, .number = 5, .line = "REM", .reply = -1},
    {.kind = COMMAND, .number = 6, .line = "REM", .damaged = true},
    /* a busy set that is not true: a channel too many, one too few, a held one too few, one for another, in either byte */
    {.kind = COMMAND, .number = 6, .line = "BSY?", .wrong = 0x0001},
    {.kind = COMMAND, .number = 6, .line = "xyz", .wrong = 0x8000},
    {.kind = COMMAND, .number = 6, .before = "S 0 0;REM;SCANP0", .line = "BSY?", .wrong = 0x0001},
    {.kind = COMMAND, .number = 6, .before = "S 0 0;REM;SCANP0", .line = "AESTP", .wrong = 0x0002},
    {.kind = COMMAND, .number = 6, .before = "S 0 0;REM;SCANP0", .line = "STS0?", .wrong = 0x8001},
    {.kind = COMMAND, .number = 6, .before = "S 8 0;REM;SCANP8", .line = "SSTP8", .wrong = 0x0101},
    {.kind = COMMAND, .number = 6, .before = "S 0 0;REM;PAUSE ON;SCANP0", .line = "PAUSE OFF", .wrong = 0x0001},

    /* the four-motor card, STQ?: with none to four busy, held or not, of either byte of the set, in both modes */
    {.kind = COMMAND, .number = 0, .card = FOUR, .line = "STQ?"},
    {.kind = COMMAND, .number = 0, .card = FOUR, .before = "REM", .line = "STQ?"},
    {.kind = COMMAND, .number = 0, .card = FOUR, .before = "S 0 0;REM;SCANP0;LOC", .line = "STQ?"},
    {.kind = COMMAND, .number = 0, .card = FOUR, .before = "S 7 0;S 8 0;REM;ALL_REP EN;SCANP7;SCANN8", .line = "STQ?"},
    {.kind = COMMAND, .number = 0, .card = FOUR, .before = THREE_MOVING, .line = "STQ?"},
    {.kind = COMMAND, .number = 0, .card = FOUR, .before = THREE_HELD, .line = "STQ?"},
    {.kind = COMMAND, .number = 0, .card = FOUR, .before = FOUR_MOVING, .line = "STQ?"},
    {.kind = COMMAND, .number = 0, .card = FOUR, .before = FOUR_HELD, .line = "STQ?"},
    {.kind = COMMAND, .number = 0, .card = FOUR, .before = FOUR_MIXED ";LOC", .line = "STQ?"},
    {.kind = COMMAND, .number = 0, .card = FOUR, .before = FOUR_HIGH, .line = "STQ?"},
    {.kind = COMMAND, .number = 0, .card = FOUR, .before = FOUR_SPREAD ";ALL_REP EN", .line = "STQ?"},
    /* on the sixteen-motor card it has no form, in both modes, whatever is busy; its near misses have none on either */
    {.kind = COMMAND, .number = 1, .line = "STQ?"},
    {.kind = COMMAND, .number = 1, .before = "REM", .line = "STQ?"},
    {.kind = COMMAND, .number = 1, .before = "REM;ALL_REP EN", .line = "STQ?"},
    {.kind = COMMAND, .number = 1, .before = "REM;ALL_REP EN;LOC", .line = "STQ?"},
    {.kind = COMMAND, .number = 1, .before = FIVE_MOVING, .line = "STQ?"},
    {.kind = COMMAND, .number = 1, .card = FOUR, .before = "REM", .line = "STQ"},
    {.kind = COMMAND, .number = 1, .card = FOUR, .line = "STQ?0"},
    {.kind = COMMAND, .number = 1, .card = FOUR, .before = "REM", .line = "STQ0?"},
    {.kind = COMMAND, .number = 1, .card = FOUR, .before = "REM;ALL_REP EN", .line = "stq?"},
    {.kind = COMMAND, .number = 1, .card = FOUR, .before = "REM", .line = "STQ? "},
    {.kind = COMMAND, .number = 1, .card = FOUR, .before = "REM", .line = "STQ ?"},
    {.kind = COMMAND, .number = 1, .before = "REM", .line = "STQ0?"},
    /* the fourth start is taken: of each kind, held, of any channel */
    {.kind = COMMAND, .number = 0, .card = FOUR, .before = THREE_MOVING, .line = "SCANN3"},
    {.kind = COMMAND, .number = 0, .card = FOUR, .before = THREE_MOVING, .line = "JOGPE"},
    {.kind = COMMAND, .number = 0, .card = FOUR, .before = THREE_MOVING ";PAUSE ON", .line = "REL3-5"},
    {.kind = COMMAND, .number = 0, .card = FOUR, .before = THREE_HELD, .line = "ABSE+5"},
    {.kind = COMMAND, .number = 0, .card = FOUR, .before = THREE_HELD ";PAUSE OFF", .line = "SCANPE"},
    {.kind = COMMAND, .number = 0, .card = FOUR, .before = "S C 0;S D 0;S E 0;S F 0;REM;SCANPD;SCANPE;SCANPF",
     .line = "SCANPC"},
    /* the fifth is not: of each kind, whatever is held, of any channel; its text, and after the release */
    {.kind = COMMAND, .number = 14, .card = FOUR, .before = FOUR_MOVING, .line = "SCANPE"},
    {.kind = COMMAND, .number = 14, .card = FOUR, .before = FOUR_MOVING, .line = "SCANNE"},
    {.kind = COMMAND, .number = 14, .card = FOUR, .before = FOUR_MOVING, .line = "JOGPE"},
    {.kind = COMMAND, .number = 14, .card = FOUR, .before = FOUR_MOVING, .line = "JOGNE"},
    {.kind = COMMAND, .number = 14, .card = FOUR, .before = FOUR_MOVING, .line = "ABSE+5"},
    {.kind = COMMAND, .number = 14, .card = FOUR, .before = FOUR_MOVING, .line = "RELE5"},
    {.kind = COMMAND, .number = 14, .card = FOUR, .before = FOUR_MOVING ";ALL_REP EN", .line = "RELE-5"},
    {.kind = COMMAND, .number = 14, .card = FOUR, .before = FOUR_MOVING ";PAUSE ON", .line = "SCANPE"},
    {.kind = COMMAND, .number = 14, .card = FOUR, .before = FOUR_HELD, .line = "SCANPE"},
    {.kind = COMMAND, .number = 14, .card = FOUR, .before = FOUR_HELD ";ALL_REP EN;PAUSE OFF", .line = "SCANPE"},
    {.kind = COMMAND, .number = 14, .card = FOUR, .before = FOUR_MIXED, .line = "ABSE-5"},
    {.kind = COMMAND, .number = 14, .card = FOUR, .before = FOUR_MIXED ";PAUSE OFF", .line = "JOGPE"},
    {.kind = COMMAND, .number = 14, .card = FOUR, .before = FOUR_HIGH, .line = "SCANP0"},
    {.kind = COMMAND, .number = 14, .card = FOUR, .before = FOUR_SPREAD, .line = "SCANN5"},
    /* what moves nothing, and what is no start, needs no place; SPC on a stopped motor is 13 */
    {.kind = COMMAND, .number = 0, .card = FOUR, .before = FOUR_MOVING, .line = "RELE+0"},
    {.kind = COMMAND, .number = 0, .card = FOUR, .before = FOUR_HELD, .line = "ABSE+0"},
    {.kind = COMMAND, .number = 0, .card = FOUR, .before = FOUR_MOVING, .line = "REL5+0"},
    {.kind = COMMAND, .number = 0, .card = FOUR, .before = FOUR_MOVING, .line = "PSE+5"},
    {.kind = COMMAND, .number = 0, .card = FOUR, .before = FOUR_MOVING, .line = "SPDHE"},
    {.kind = COMMAND, .number = 0, .card = FOUR, .before = FOUR_MOVING, .line = "SPC0400"},
    {.kind = COMMAND, .number = 13, .card = FOUR, .before = FOUR_MOVING, .line = "SPCE400"},
    {.kind = COMMAND, .number = 0, .card = FOUR, .before = FOUR_MOVING, .line = "PAUSE ON"},
    {.kind = COMMAND, .number = 0, .card = FOUR, .before = FOUR_HELD, .line = "PAUSE OFF"},
    /* every other refusal comes first */
    {.kind = COMMAND, .number = 1, .card = FOUR, .before = FOUR_MOVING, .line = "SCANPEE"},
    {.kind = COMMAND, .number = 7, .card = FOUR, .before = FOUR_MOVING ";LOC", .line = "SCANPE"},
    {.kind = COMMAND, .number = 7, .card = FOUR, .before = FOUR_MOVING ";LOC", .line = "RELE+0"},
    {.kind = COMMAND, .number = 3, .card = FOUR, .before = FOUR_MOVING, .line = "ABSE+2147483648"},
    {.kind = COMMAND, .number = 2, .card = FOUR, .before = FOUR_MOVING, .line = "SCANP0"},
    {.kind = COMMAND, .number = 2, .card = FOUR, .before = FOUR_HELD, .line = "REL1+0"},
    {.kind = COMMAND, .number = 2, .card = FOUR, .before = FOUR_MOVING, .line = "PS2+5"},
    {.kind = COMMAND, .number = 3, .card = FOUR, .before = FOUR_MOVING ";PSE+2147483647", .line = "RELE+1"},
    {.kind = COMMAND, .number = 3, .card = FOUR, .before = FOUR_MOVING ";PSE-2147483647", .line = "JOGNE"},
    {.kind = COMMAND, .number = 8, .card = FOUR, .before = FOUR_MOVING ";SETMTE0100", .line = "SCANPE"},
    {.kind = COMMAND, .number = 14, .card = FOUR, .before = FOUR_MOVING ";SETMTE0100;SETMTE1100", .line = "SCANPE"},
    {.kind = COMMAND, .number = 9, .card = FOUR, .before = FOUR_MOVING, .line = "SCANP5"},
    {.kind = COMMAND, .number = 9, .card = FOUR, .before = FOUR_HELD, .line = "ABS5+1"},
    {.kind = COMMAND, .number = 10, .card = FOUR, .before = FOUR_MOVING ";S E 1", .line = "RELE+1"},
    {.kind = COMMAND, .number = 14, .card = FOUR, .before = FOUR_MOVING ";S E 1", .line = "RELE-1"},
    {.kind = COMMAND, .number = 11, .card = FOUR, .before = FOUR_MOVING ";SETLSE11110000;FLE+0", .line = "JOGPE"},
    {.kind = COMMAND, .number = 11, .card = FOUR, .before = FOUR_HELD ";SETLSE11110000;FLE+0", .line = "ABSE+1"},
    {.kind = COMMAND, .number = 12, .card = FOUR, .before = FOUR_MOVING ";PSE+2147483647", .line = "SCANPE"},
    {.kind = COMMAND, .number = 14, .card = FOUR, .before = FOUR_MOVING ";PSE+2147483647", .line = "SCANNE"},
    /* a place is free once a drive has ended, held or not: by each stop, a reading, a tick at a target or a limit */
    {.kind = COMMAND, .number = 0, .card = FOUR, .before = FOUR_MOVING ";SSTP2", .line = "STQ?"},
    {.kind = COMMAND, .number = 0, .card = FOUR, .before = FOUR_MOVING ";SSTP2", .line = "SCANPE"},
    {.kind = COMMAND, .number = 0, .card = FOUR, .before = FOUR_MOVING ";SSTP2;SCANPE", .line = "BSY?"},
    {.kind = COMMAND, .number = 14, .card = FOUR, .before = FOUR_MOVING ";SSTP2;SCANPE", .line = "SCANP2"},
    {.kind = COMMAND, .number = 0, .card = FOUR, .before = FOUR_HELD ";ESTP3", .line = "JOGPE"},
    {.kind = COMMAND, .number = 0, .card = FOUR, .before = FOUR_MIXED ";ASSTP", .line = "STQ?"},
    {.kind = COMMAND, .number = 0, .card = FOUR, .before = FOUR_MIXED ";AESTP", .line = "RELE+5"},
    {.kind = COMMAND, .number = 0, .card = FOUR, .before = FOUR_MOVING ";S 0 1", .line = "STQ?"},
    {.kind = COMMAND, .number = 0, .card = FOUR, .before = FOUR_MOVING ";S 0 1", .line = "ABSE+5"},
    {.kind = COMMAND, .number = 0, .card = FOUR, .before = FOUR_HELD ";S 1 2", .line = "SCANPE"},
    {.kind = COMMAND, .number = 0, .card = FOUR, .before = FOUR_MOVING ";T 2", .line = "STQ?"},
    {.kind = COMMAND, .number = 0, .card = FOUR, .before = FOUR_MOVING ";T 2", .line = "SCANPE"},
    {.kind = COMMAND, .number = 0, .card = FOUR, .before = FOUR_MIXED ";PAUSE OFF;T 2", .line = "SCANPE"},
    {.kind = COMMAND, .number = 0, .card = FOUR, .before = THREE_MOVING ";SETLS311110000;FL3+1;SCANP3;T 2",
     .line = "SCANPE"},
    /* and by nothing else: a stop of a motor that stands, another switch, a tick before the end, LOC, a release */
    {.kind = COMMAND, .number = 14, .card = FOUR, .before = FOUR_MOVING ";SSTPE;ESTP5", .line = "SCANPE"},
    {.kind = COMMAND, .number = 14, .card = FOUR, .before = FOUR_MOVING ";S 0 2", .line = "SCANPE"},
    {.kind = COMMAND, .number = 14, .card = FOUR, .before = FOUR_MOVING ";T 1", .line = "SCANPE"},
    {.kind = COMMAND, .number = 14, .card = FOUR, .before = FOUR_HELD ";T 9;LOC;REM", .line = "SCANPE"},
    {.kind = COMMAND, .number = 0, .card = FOUR, .before = FOUR_HELD ";PAUSE OFF", .line = "STQ?"},
    /* on the sixteen-motor card there is no such gate: the fifth start, a held one too, and the sixteenth */
    {.kind = COMMAND, .number = 0, .before = FOUR_MOVING, .line = "SCANPE"},
    {.kind = COMMAND, .number = 0, .before = FOUR_HELD, .line = "JOGPE"},
    {.kind = COMMAND, .number = 0, .before = FIFTEEN_MOVING, .line = "SCANPF"},
    {.kind = COMMAND, .number = 2, .before = FIFTEEN_MOVING ";SCANPF", .line = "SCANPF"},
    /* soundness: byte 6, byte 7, the last byte of the head; on the four-motor card four busy, not five, held or not */
    {.kind = COMMAND, .number = 0, .line = "STQ?", .at = CARD, .byte = 1},
    {.kind = COMMAND, .number = 6, .line = "STQ?", .at = CARD, .byte = 2},
    {.kind = COMMAND, .number = 6, .card = FOUR, .line = "REM", .at = CARD, .byte = 3},
    {.kind = COMMAND, .number = 6, .line = "xyz", .at = CARD, .byte = 255},
    {.kind = COMMAND, .number = 6, .line = "REM", .at = CARD + 1, .byte = 1},
    {.kind = COMMAND, .number = 6, .card = FOUR, .line = "STQ?", .at = CARD + 1, .byte = 128},
    {.kind = COMMAND, .number = 6, .line = "REM", .at = 8, .byte = 1},
    {.kind = COMMAND, .number = 6, .card = FOUR, .line = "REM", .at = 63, .byte = 1},
    {.kind = COMMAND, .number = 0, .before = FOUR_MOVING, .line = "STQ?", .at = CARD, .byte = 1},
    {.kind = COMMAND, .number = 14, .before = FOUR_HELD, .line = "SCANPE", .at = CARD, .byte = 1},
    {.kind = COMMAND, .number = 0, .card = FOUR, .before = FOUR_MOVING, .line = "SCANPE", .at = CARD, .byte = 0},
    {.kind = COMMAND, .number = 1, .card = FOUR, .before = FOUR_MOVING, .line = "STQ?", .at = CARD, .byte = 0},
    {.kind = COMMAND, .number = 0, .before = FIVE_MOVING, .line = "BSY?"},
    {.kind = COMMAND, .number = 6, .before = FIVE_MOVING, .line = "BSY?", .at = CARD, .byte = 1},
    {.kind = COMMAND, .number = 6, .before = FIVE_SPREAD, .line = "STS0?", .at = CARD, .byte = 1},
    {.kind = COMMAND, .number = 6, .before = FIVE_HELD, .line = "STQ?", .at = CARD, .byte = 1},
    {.kind = COMMAND, .number = 6, .before = FIVE_HELD, .line = "AESTP", .at = CARD, .byte = 1},
    {.kind = COMMAND, .number = 6, .before = FIFTEEN_MOVING ";SCANPF", .line = "xyz", .at = CARD, .byte = 1},
    {.kind = COMMAND, .number = 6, .card = FOUR, .before = FOUR_MOVING, .line = "STQ?", .wrong = 0x4000},
    {.kind = COMMAND, .number = 6, .card = FOUR, .before = FOUR_HELD, .line = "SCANPE", .wrong = 0x0001},
    {.kind = COMMAND, .number = 6, .card = FOUR, .line = "STQ?", .damaged = true},
    {.kind = COMMAND, .number = 5, .line = "STQ?", .reply = -1},
    {.kind = COMMAND, .number = 5, .card = FOUR, .before = FOUR_MOVING, .line = "SCANPE", .table = 1},

    {.kind = READING, .number = 0, .channel = 15, .contacts = 7},
    /* a held drive: the switch of its direction ends it, and neither the other one nor HP does, either way */
    {.kind = READING, .number = 0, .before = "S 0 0;REM;PAUSE ON;SCANP0", .channel = 0, .contacts = 1},
    {.kind = READING, .number = 0, .before = "S 0 0;REM;PAUSE ON;SCANP0", .channel = 0, .contacts = 6},
    {.kind = READING, .number = 0, .before = "S 0 0;REM;PAUSE ON;SCANN0", .channel = 0, .contacts = 2},
    {.kind = READING, .number = 0, .before = "S 0 0;REM;PAUSE ON;SCANN0", .channel = 0, .contacts = 5},
    /* a drive that is ended, and one that goes on */
    {.kind = READING, .number = 0, .before = "S 0 0;S 8 0;REM;SCANP0;SCANN8", .channel = 8, .contacts = 2},
    {.kind = READING, .number = 5, .table = 1},
    {.kind = READING, .number = 5, .channel = 16},
    {.kind = READING, .number = 5, .contacts = 8},
    {.kind = READING, .number = 6, .damaged = true},
    {.kind = READING, .number = 6, .channel = 5, .wrong = 0x0001},
    {.kind = READING, .number = 6, .before = "S F 0;REM;SCANPF", .channel = 15, .contacts = 1, .wrong = 0x8000},
    /* with four busy on the four-motor card: one that ends a drive, one that ends none; with five; no card */
    {.kind = READING, .number = 0, .card = FOUR, .before = FOUR_MOVING, .channel = 0, .contacts = 1},
    {.kind = READING, .number = 0, .card = FOUR, .before = FOUR_HELD, .channel = 14, .contacts = 7},
    {.kind = READING, .number = 0, .before = FOUR_MOVING, .channel = 1, .contacts = 2, .at = CARD, .byte = 1},
    {.kind = READING, .number = 6, .before = FIVE_MOVING, .channel = 0, .contacts = 1, .at = CARD, .byte = 1},
    {.kind = READING, .number = 6, .before = FIVE_HELD, .channel = 15, .at = CARD, .byte = 1},
    {.kind = READING, .number = 6, .at = CARD, .byte = 2},
    {.kind = READING, .number = 6, .card = FOUR, .at = CARD + 1, .byte = 1},
    {.kind = READING, .number = 6, .at = 63, .byte = 1},

    {.kind = TICK, .number = 0, .before = "S 0 0;REM;SCANP0"},
    {.kind = TICK, .number = 0, .before = "S 0 0;S 1 0;REM;SCANP1;PAUSE ON;SCANN0"},
    {.kind = TICK, .number = 0, .before = "S 0 0;REM;SPDM05000000;PAUSE ON;REL0+3;PAUSE OFF"},
    /* the last pulses of a drive, at its target and at its limit, while others go on or are held */
    {.kind = TICK, .number = 0, .before = "S 0 0;S 9 0;REM;REL0+1;SCANP9;T 1"},
    {.kind = TICK, .number = 0, .before = "S 0 0;S F 0;REM;SETLSF11110000;BLF-1;SCANNF;T 1;PAUSE ON;SCANP0"},
    {.kind = TICK, .number = 5, .table = -1},
    {.kind = TICK, .number = 5, .pulses = -1},
    {.kind = TICK, .number = 5, .pulses = 1},
    {.kind = TICK, .number = 6, .damaged = true},
    {.kind = TICK, .number = 6, .wrong = 0x0100},
    {.kind = TICK, .number = 6, .before = "S 0 0;S 1 0;REM;SCANP0;SCANP1", .wrong = 0x0002},
    /* with four busy on the four-motor card: moving, held, and one whose drive ends; with five; no card */
    {.kind = TICK, .number = 0, .card = FOUR, .before = FOUR_MIXED},
    {.kind = TICK, .number = 0, .card = FOUR, .before = FOUR_HELD},
    {.kind = TICK, .number = 0, .card = FOUR, .before = FOUR_MOVING ";T 1"},
    {.kind = TICK, .number = 0, .before = FOUR_MOVING, .at = CARD, .byte = 1},
    {.kind = TICK, .number = 6, .before = FIVE_MOVING, .at = CARD, .byte = 1},
    {.kind = TICK, .number = 6, .before = FIVE_HELD, .at = CARD, .byte = 1},
    {.kind = TICK, .number = 6, .card = FOUR, .at = CARD, .byte = 255},
    {.kind = TICK, .number = 6, .at = CARD + 1, .byte = 1},
    {.kind = TICK, .number = 6, .card = FOUR, .at = 63, .byte = 1},
};

const size_t tour_size = sizeof tour / sizeof tour[0];

void tour_damage(const struct step *s, uint8_t *table)
{
    enum { BUSY = 4, HEAD = 64 };
    if (s->damaged)
        memcpy(table + HEAD, "\0\0\0\x80", 4);
    table[BUSY] = (uint8_t)(table[BUSY] ^ s->wrong);
    table[BUSY + 1] = (uint8_t)(table[BUSY + 1] ^ s->wrong >> 8);
    if (s->at != 0)
        table[s->at] = s->byte;
}
