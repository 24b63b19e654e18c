#include "sides.h"

#include <stdio.h>
#include <string.h>

#include "model.h"

static uint32_t no_fresh(uint8_t *table, size_t table_size, uint32_t card)
{
    (void)table, (void)table_size, (void)card;
    return 0;
}

static uint32_t no_command(uint8_t *table, size_t table_size, const uint8_t *line, size_t line_size, uint8_t *reply,
                           size_t reply_size)
{
    (void)table, (void)table_size, (void)line, (void)line_size, (void)reply, (void)reply_size;
    return 0;
}

static uint32_t no_reading(uint8_t *table, size_t table_size, uint32_t channel, uint32_t contacts)
{
    (void)table, (void)table_size, (void)channel, (void)contacts;
    return 0;
}

static uint32_t no_tick(uint8_t *table, size_t table_size, uint8_t *pulses, size_t pulses_size)
{
    (void)table, (void)table_size, (void)pulses, (void)pulses_size;
    return 0;
}

const struct side sides[SIDES] = {{urqolina_fresh, urqolina_command, urqolina_reading, urqolina_tick},
                                  {model_fresh, model_command, model_reading, model_tick},
                                  {no_fresh, no_command, no_reading, no_tick}};

uint8_t start[URQOLINA_TABLE_SIZE + 1];
struct call call;

static uint8_t table[sizeof start], reply[URQOLINA_REPLY_SIZE], pulses[URQOLINA_PULSES_SIZE + 1];

void take_up(int kind, const char *line, uint32_t channel, uint32_t contacts)
{
    call = (struct call){.side = &sides[NOTHING],
                         .kind = kind,
                         .line = (const uint8_t *)line,
                         .line_size = strlen(line),
                         .channel = channel,
                         .contacts = contacts,
                         .card = URQOLINA_CARD_16,
                         .table_size = URQOLINA_TABLE_SIZE,
                         .reply_size = URQOLINA_REPLY_SIZE,
                         .pulses_size = URQOLINA_PULSES_SIZE};
}

void restore(void)
{
    memcpy(table, start, sizeof table);
}

/* It stands by itself, so that it can be called on another stack. */
__attribute__((noinline)) void make_call(void)
{
    switch (call.kind) {
    case FRESH: call.result = call.side->fresh(table, call.table_size, call.card); return;
    case COMMAND:
        call.result = call.side->command(table, call.table_size, call.line, call.line_size, reply, call.reply_size);
        return;
    case READING: call.result = call.side->reading(table, call.table_size, call.channel, call.contacts); return;
    default: call.result = call.side->tick(table, call.table_size, pulses, call.pulses_size); return;
    }
}

/* A stack of which the upper part is painted. A call that goes below the paint has spoilt nothing. */
enum { PAINT = 8192, SPARE = 65536 };
static _Alignas(64) uint8_t stack[SPARE + PAINT];

static __attribute__((noinline)) void run_on(uint8_t *top, void (*run)(void))
{
    __asm__ volatile("movq %%rsp, %%rbx\n\tmovq %0, %%rsp\n\tcall *%1\n\tmovq %%rbx, %%rsp"
                     :
                     : "r"(top), "r"(run)
                     : "rax", "rbx", "rcx", "rdx", "rsi", "rdi", "r8", "r9", "r10", "r11", "r12", "r13", "xmm0", "xmm1",
                       "xmm2", "xmm3", "xmm4", "xmm5", "xmm6", "xmm7", "xmm8", "xmm9", "xmm10", "xmm11", "xmm12", "xmm13",
                       "xmm14", "xmm15", "memory", "cc");
}

/* How far down the paint is changed. A byte written in the colour of the paint is missed, so the deepest of two colours counts. */
static uint32_t depth_of(void (*run)(void))
{
    static const uint8_t colours[] = {0x5a, 0xa5};
    uint8_t *paint = stack + SPARE;
    uint32_t most = 0;
    for (int k = 0; k < 2; k++) {
        uint32_t left = 0;
        memset(paint, colours[k], PAINT);
        restore();
        run_on(paint + PAINT, run);
        while (left < PAINT && paint[left] == colours[k])
            left++;
        most = PAINT - left > most ? PAINT - left : most;
    }
    return most;
}

uint32_t stack_of(int side)
{
    call.side = &sides[NOTHING];
    uint32_t none = depth_of(make_call);
    call.side = &sides[side];
    return depth_of(make_call) - none + 8; /* the call that does nothing has a return address too */
}

/* Changes one byte, 1,000 bytes below its return address. */
__asm__(".text\nchange_one:\n\tnotb -1000(%rsp)\n\tret\n");
void change_one(void);

int paint_holds(void)
{
    return depth_of(change_one) == 1008;
}

uint32_t send_line(const char *text)
{
    return URQOLINA_NUMBER(model_command(start, URQOLINA_TABLE_SIZE, (const uint8_t *)text, strlen(text), reply, sizeof reply));
}

void set_out(uint32_t driving)
{
    char text[16];
    for (uint32_t c = 0; c < URQOLINA_CHANNELS; c++)
        model_reading(start, URQOLINA_TABLE_SIZE, c, 0);
    for (uint32_t c = 0; c < driving; c++) {
        snprintf(text, sizeof text, c % 2 == 0 ? "ABS%X+5000" : "SCANN%X", c);
        send_line(text);
    }
}
