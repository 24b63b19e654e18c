/*
 * speed: what each call costs in the library and in the model, both measured in this one run: instructions, nanoseconds and
 * bytes of stack, with the ratio of the library to the model. Where the program runs in an emulator its nanoseconds are the
 * emulator's; the instructions are the processor's own either way.
 *
 * Ends with status 1 where a ratio of instructions is above 1.20 or a call of the library takes more than 512 bytes of stack.
 */
#define _GNU_SOURCE
#include <signal.h>
#include <stdbool.h>
#include <stdio.h>
#include <time.h>

#include "model.h"
#include "sides.h"

/* A call that is measured, and the lines that are sent before it. Each line is sent to so many channels, from 0 on. */
struct measured {
    const char *name;
    int kind;
    const char *line;
    uint32_t driving;    /* channels that drive when the call is made */
    uint32_t expected;   /* the number that the call must give */
    uint32_t damage;     /* a byte of the table that is not 0 when the call is made, if this is not 0 */
    bool paused;         /* they were started under pause, and are held */
    const char *before;  /* a line that is sent last before the call, if there is one */
    uint32_t card;       /* of the table */
};

static const struct measured calls[] = {
    {"fresh", FRESH, "", 0, 0, 0, false, NULL, 0},
    {"tick, 0 motors driving", TICK, "", 0, 0, 0, false, NULL, 0},
    {"tick, 1 motor driving", TICK, "", 1, 0, 0, false, NULL, 0},
    {"tick, 4 motors driving", TICK, "", 4, 0, 0, false, NULL, 0},
    {"tick, 16 motors driving", TICK, "", 16, 0, 0, false, NULL, 0},
    {"tick, 16 motors held", TICK, "", 16, 0, 0, true, NULL, 0},
    {"tick that ends a drive", TICK, "", 1, 0, 0, false, "SPC05000000", 0},
    {"PS?0", COMMAND, "PS?0", 0, 0, 0, false, NULL, 0},
    {"PS?0, 16 motors driving", COMMAND, "PS?0", 16, 0, 0, false, NULL, 0},
    {"BSY?", COMMAND, "BSY?", 0, 0, 0, false, NULL, 0},
    {"BSY?, 16 motors driving", COMMAND, "BSY?", 16, 0, 0, false, NULL, 0},
    {"STS0?", COMMAND, "STS0?", 0, 0, 0, false, NULL, 0},
    {"ABS0+100, accepted", COMMAND, "ABS0+100", 0, 0, 0, false, NULL, 0},
    {"ABS0100, accepted", COMMAND, "ABS0100", 0, 0, 0, false, NULL, 0},
    {"ABS0+100, refused as busy", COMMAND, "ABS0+100", 1, 2, 0, false, NULL, 0},
    {"ABS0+3000000000, refused", COMMAND, "ABS0+3000000000", 0, 3, 0, false, NULL, 0},
    {"SCANP0, refused in local mode", COMMAND, "SCANP0", 0, 7, 0, false, "LOC", 0},
    {"SCANP0, refused as disabled", COMMAND, "SCANP0", 0, 8, 0, false, "SETMT00100", 0},
    {"SCANP0, refused at the range's end", COMMAND, "SCANP0", 0, 12, 0, false, "PS0+2147483647", 0},
    {"SPC0400, refused as stopped", COMMAND, "SPC0400", 0, 13, 0, false, NULL, 0},
    {"SETLS011110000", COMMAND, "SETLS011110000", 0, 0, 0, false, NULL, 0},
    {"AESTP, 0 motors driving", COMMAND, "AESTP", 0, 0, 0, false, NULL, 0},
    {"AESTP, 16 motors driving", COMMAND, "AESTP", 16, 0, 0, false, NULL, 0},
    {"PAUSE ON", COMMAND, "PAUSE ON", 0, 0, 0, false, NULL, 0},
    {"PAUSE OFF, 16 motors held", COMMAND, "PAUSE OFF", 16, 0, 0, true, NULL, 0},
    {"garbled, ABS0+10z", COMMAND, "ABS0+10z", 0, 1, 0, false, NULL, 0},
    {"garbled, xyz", COMMAND, "xyz", 0, 1, 0, false, NULL, 0},
    {"reading", READING, "", 0, 0, 0, false, NULL, 0},
    {"reading that ends a drive", READING, "", 1, 0, 0, false, NULL, 0},
    {"table not sound at its head", COMMAND, "PS?0", 0, 6, 63, false, NULL, 0},
    {"table not sound at its end", COMMAND, "PS?0", 0, 6, 1087, false, NULL, 0},
    {"tick, four-motor card, 4 driving", TICK, "", 4, 0, 0, false, NULL, 1},
    {"STQ?, four-motor card", COMMAND, "STQ?", 0, 0, 0, false, NULL, 1},
    {"STQ?, four-motor card, 4 driving", COMMAND, "STQ?", 4, 0, 0, false, NULL, 1},
    {"STQ?, refused on the sixteen-motor card", COMMAND, "STQ?", 0, 1, 0, false, NULL, 0},
    {"ABSF+100, accepted as the fourth", COMMAND, "ABSF+100", 3, 0, 0, false, NULL, 1},
    {"SCANPF, accepted as the fourth", COMMAND, "SCANPF", 3, 0, 0, false, NULL, 1},
    {"SCANPF, refused as the fifth", COMMAND, "SCANPF", 4, 14, 0, false, NULL, 1},
    {"SCANPF, refused as the fifth, 4 held", COMMAND, "SCANPF", 4, 14, 0, true, NULL, 1},
};

/* Makes the table that a call is measured on, with all switches read. Scans and drives to a target take turns; a tick has passed already. */
static void prepare(const struct measured *m)
{
    uint8_t pulses[URQOLINA_PULSES_SIZE];
    model_fresh(start, URQOLINA_TABLE_SIZE, m->card);
    send_line("REM");
    if (m->paused)
        send_line("PAUSE ON");
    set_out(m->driving);
    model_tick(start, URQOLINA_TABLE_SIZE, pulses, sizeof pulses);
    if (m->before != NULL)
        send_line(m->before);
    if (m->damage != 0)
        start[m->damage] = 1;
}

static volatile uint64_t steps;

static void on_step(int number)
{
    (void)number;
    steps++;
}

/* Instructions of the call, counted by the processor's trap flag: it stops after each. */
static uint64_t instructions(void)
{
    restore();
    steps = 0;
    __asm__ volatile("pushfq\n\torq $0x100, (%%rsp)\n\tpopfq" ::: "memory", "cc");
    make_call();
    __asm__ volatile("pushfq\n\tandq $-257, (%%rsp)\n\tpopfq" ::: "memory", "cc");
    return steps;
}

static double now(void)
{
    struct timespec t;
    clock_gettime(CLOCK_MONOTONIC, &t);
    return 1e9 * (double)t.tv_sec + (double)t.tv_nsec;
}

/* Nanoseconds of the call, the table restored before each, over some calls in a row. */
static double nanoseconds(void)
{
    enum { TIMES = 200 };
    double from = now();
    for (int k = 0; k < TIMES; k++) {
        restore();
        make_call();
    }
    return (now() - from) / TIMES;
}

struct cost {
    uint64_t instructions;
    double nanoseconds;
    uint32_t stack;
};

/* The costs of a call on each side, less those of the call that does nothing. Of the times the shortest of many counts, the
   sides taking turns, so that what else the machine does falls on all of them. */
static bool measure(const struct measured *m, struct cost costs[SIDES])
{
    bool right = true;
    prepare(m);
    take_up(m->kind, m->line, 0, 1);
    for (int k = 0; k < SIDES; k++) {
        call.side = &sides[k];
        costs[k] = (struct cost){instructions(), nanoseconds(), 0};
        right = right && (k == NOTHING || URQOLINA_NUMBER(call.result) == m->expected);
    }
    for (int round = 0; round < 200; round++)
        for (int k = 0; k < SIDES; k++) {
            call.side = &sides[k];
            double time = nanoseconds();
            costs[k].nanoseconds = time < costs[k].nanoseconds ? time : costs[k].nanoseconds;
        }
    for (int k = 0; k < NOTHING; k++) {
        costs[k].instructions -= costs[NOTHING].instructions;
        costs[k].nanoseconds -= costs[NOTHING].nanoseconds;
        costs[k].stack = stack_of(k);
    }
    return right;
}

int main(void)
{
    bool good = true;
    struct sigaction step = {.sa_handler = on_step};
    sigaction(SIGTRAP, &step, NULL);
    printf("| call | instructions: library | model | ratio | ns: library | model | ratio | stack: library | model |\n");
    printf("|---|---|---|---|---|---|---|---|---|\n");
    for (size_t k = 0; k < sizeof calls / sizeof calls[0]; k++) {
        struct cost cost[SIDES];
        if (!measure(&calls[k], cost)) {
            printf("speed: %s: a call did not give %u\n", calls[k].name, calls[k].expected);
            return 2;
        }
        const struct cost *a = &cost[LIBRARY], *b = &cost[MODEL];
        double ratio = (double)a->instructions / (double)b->instructions;
        printf("| %s | %llu | %llu | %.2f | %.0f | %.0f | %.2f | %u | %u |\n", calls[k].name,
               (unsigned long long)a->instructions, (unsigned long long)b->instructions, ratio, a->nanoseconds,
               b->nanoseconds, a->nanoseconds / b->nanoseconds, a->stack, b->stack);
        good = good && ratio <= 1.20 && a->stack <= 512;
    }
    return good ? 0 : 1;
}
