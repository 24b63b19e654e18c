/*
 * A firmware loop over Urqolina: it makes a table, reads the switches, sends lines, ticks, and prints the pulses that a
 * real host would send to its drivers, and for what is refused what to do about it. docs/HOST.md says how to build and link it.
 */
#include <stdio.h>
#include <string.h>

#include "urqolina.h"

/* All memory is the host's. */
static uint8_t table[URQOLINA_TABLE_SIZE];
static uint8_t reply[URQOLINA_REPLY_SIZE];
static uint8_t pulses[URQOLINA_PULSES_SIZE];

static void print_number(uint32_t number)
{
    printf(" -> %u", number);
    if (number != URQOLINA_OK)
        printf(" (%s)", urqolina_advice(number));
}

static void send(const char *line)
{
    uint32_t result =
        urqolina_command(table, sizeof table, (const uint8_t *)line, strlen(line), reply, sizeof reply);
    printf("%-12s", line);
    print_number(URQOLINA_NUMBER(result));
    if (URQOLINA_REPLY_LENGTH(result) != 0)
        printf(" %.*s", (int)URQOLINA_REPLY_LENGTH(result), (const char *)reply);
    printf("\n");
}

/* What the wires of a channel tell: bit 0 the CW switch, bit 1 the CCW switch, bit 2 HP, closed = 1. A real host asks its
   inputs. Here the rack of channel 5 woke on its CW switch. */
static uint32_t wires[URQOLINA_CHANNELS] = {[5] = 1};

static uint32_t read_switches(uint32_t channel)
{
    return urqolina_reading(table, sizeof table, channel, wires[channel]);
}

/* At power-up: a fresh table, of the bench's card, knows no switch, and starts no motor whose switches were not read. */
static int power_up(uint32_t card)
{
    if (urqolina_fresh(table, sizeof table, card) != URQOLINA_OK)
        return 0;
    for (uint32_t channel = 0; channel < URQOLINA_CHANNELS; channel++)
        if (read_switches(channel) != URQOLINA_OK)
            return 0;
    return 1;
}

/* One millisecond; gives whether the tick was taken. Only channels that are busy when it comes have pulses, so no other count
   is looked at. The set is taken before the tick: a drive that ends in it is out of the set afterwards, and its last pulses
   stand in the buffer. A refused tick gives no pulse, and its buffer is not looked at. */
static int tick(unsigned millisecond)
{
    uint32_t busy = urqolina_busy(table);
    uint32_t number = urqolina_tick(table, sizeof table, pulses, sizeof pulses);
    if (number != URQOLINA_OK) {
        printf("tick %u", millisecond);
        print_number(number);
        printf("\n");
        return 0;
    }
    for (uint32_t channel = 0; busy != 0; channel++, busy >>= 1) {
        int32_t count = (busy & 1u) != 0 ? urqolina_count(pulses, channel) : 0;
        if (count != 0)
            printf("tick %u: channel %X %+ld\n", millisecond, channel, (long)count);
    }
    return 1;
}

/* Ticks until no motor is busy, and gives the millisecond reached. A held motor, or a scan with nothing ahead of it, would be
   waited for in vain: so there is a bound. */
static unsigned tick_until_idle(unsigned now, unsigned most)
{
    int taken = 1;
    while (taken && urqolina_busy(table) != 0 && now < most)
        taken = tick(++now);
    return now;
}

/* A bench with the four-motor card: any four of the sixteen channels may be busy, and no fifth. */
static void run_four(void)
{
    send("STQ?");     /* local mode, and four motors may start */
    send("REM");
    send("SCANP0");
    send("SCANN1");
    send("PAUSE ON");
    send("REL2+5");   /* a held drive takes a place too */
    send("RELE-5");
    send("STQ?");
    send("SCANP3");   /* the fifth: refused */
    send("SSTP1");    /* one is stopped, and leaves its place */
    printf("free motors: %u\n", urqolina_free_motors(table));
    send("SCANP3");
    send("BSY?");
}

int main(void)
{
    unsigned now = 0;

    if (!power_up(URQOLINA_CARD_16))
        return 1;
    send("SCANN5");   /* at power-up the controller is in local mode: refused */
    send("REM");
    send("SCANP5");   /* onto its switch: refused */
    send("SCANN5");   /* and away from it */
    send("ESTP5");
    send("ABS0+3");   /* 800 pulses a second: 0.8 of a pulse a tick, and the fraction is carried */
    send("SCANNB");
    send("BSY?");     /* bit 11 and bit 0: channels B and 0 are busy */
    while (now < 4)
        tick(++now);
    send("BSY?");     /* channel 0 is at its target, and B scans on */
    send("STS0?");
    wires[0xB] = 2;   /* the CCW switch of channel B closes, and ends its drive */
    printf("switches B -> %u\n", read_switches(0xB));
    tick(++now);
    send("STSB?");
    send("ABS0+3 ");   /* a byte too many: no form */
    send("ERR?");
    send("PAUSE ON");   /* the syringe and the rack are to leave on the same tick: their starts are held */
    send("REL1+2");
    send("REL2-2");
    send("STS1?");
    tick(++now);
    send("BSY?");       /* they are busy from their start on */
    send("PAUSE OFF");
    now = tick_until_idle(now, 100);
    send("BSY?");

    table[4] = 1;   /* the set has channel 0, which stands: a damaged table is found out, and nothing is done on it */
    send("PS?0");
    tick(++now);

    if (!power_up(URQOLINA_CARD_4))   /* it is made anew, for another bench */
        return 1;
    run_four();
    return 0;
}
