/* Histories of clocks: messages chosen by looking at the clock they will
 * meet. */
#include <stdio.h>

#include "generate.h"

#define PICK(seed, ...) \
    pick(seed, (const uint32_t[]){__VA_ARGS__}, \
         sizeof(uint32_t[]){__VA_ARGS__} / sizeof(uint32_t))

#define HALF (UINT32_C(1) << 31)

enum { EIGHT = CLOCK_MESSAGE_BYTES };

static uint32_t pick(uint64_t *seed, const uint32_t *from, uint32_t count)
{
    return from[below(seed, count)];
}

void clock_words(uint32_t a, uint32_t b, uint32_t c, uint32_t d)
{
    const uint32_t word[] = {a, b, c, d};
    uint8_t bytes[CLOCK_RECORD_BYTES];
    for (int i = 0; i < CLOCK_RECORD_BYTES; i++)
        bytes[i] = (uint8_t)(word[i / 4] >> 8 * (i % 4));
    fwrite(bytes, 1, sizeof bytes, stdout);
}

struct history {
    struct clock clock;
    uint64_t seed;
    uint32_t left;    /* messages until the next new clock */
    uint32_t ticks;   /* weight of ticks; Time has 5 and delays have 40 */
    uint32_t span;    /* how far most delays reach */
    uint32_t far;     /* percent of delays that no history outlives */
    uint32_t spoiled; /* percent of messages with something wrong */
};

static uint32_t first_count(uint64_t *s)
{
    uint32_t reach = PICK(s, 1, 3, 10, 40);
    uint32_t back = 1 + below(s, reach);
    switch (below(s, 10)) {
    case 0:
        return below(s, 3);
    case 1:
    case 2:
        return HALF - back;
    case 3:
        return (uint32_t)draw(s);
    default:
        return 0 - back;         /* soon wraps */
    }
}

/* Bits that a clock which looks at part of a tid would miss. The kernel tells a
 * receiver no sender of more than a byte. */
static uint32_t far_tid(uint64_t *s)
{
    uint32_t tid = 1 + below(s, TASKS);
    return tid + PICK(s, 32, 64, 96, 128, 192, 255 - TASKS);
}

static void new_clock(struct history *h)
{
    uint64_t *s = &h->seed;
    uint32_t notifier = 1 + below(s, TASKS);
    if (chance(s, 4))
        notifier = far_tid(s);
    else if (chance(s, 2))
        notifier = 0;
    clock_start(&h->clock, notifier, first_count(s));
    clock_words(0, notifier, h->clock.count, 0);
    h->left = chance(s, 30) ? 1 + below(s, 20) : 20 + below(s, 250);
    h->ticks = PICK(s, 3, 10, 25, 60);
    h->span = PICK(s, 1, 3, 8, 30);
    h->far = PICK(s, 0, 3, 15);
    h->spoiled = PICK(s, 2, 10, 25);
}

/* Somebody asleep, else anybody. */
static uint32_t asleep_tid(struct history *h)
{
    if (h->clock.asleep > 0)
        return h->clock.sleeper[below(&h->seed, h->clock.asleep)].tid;
    return 1 + below(&h->seed, TASKS);
}

/* Mostly somebody who may sleep. */
static uint32_t some_tid(struct history *h)
{
    uint64_t *s = &h->seed;
    uint32_t start = below(s, TASKS), style = below(s, 100);
    if (style < 2)
        return far_tid(s);
    if (style < 5)
        return asleep_tid(h);
    for (uint32_t i = 0; style < 92 && i < TASKS; i++) {
        uint32_t tid = 1 + (start + i) % TASKS;
        if (!clock_is_asleep(&h->clock, tid))
            return tid;
    }
    return 1 + start;
}

/* A count near enough to be reached, often one at which others are due. */
static uint32_t near_count(struct history *h)
{
    uint64_t *s = &h->seed;
    uint32_t ahead = 1 + below(s, h->span), style = below(s, 10);
    if (style < 3 && h->clock.asleep > 0)
        return h->clock.sleeper[below(s, h->clock.asleep)].due;
    if (style < 5 && 0 - h->clock.count < 60)
        return PICK(s, 0, 0, 1, UINT32_MAX);
    return h->clock.count + ahead;
}

static uint32_t some_delay(struct history *h)
{
    uint64_t *s = &h->seed;
    uint32_t style = below(s, 100);
    if (chance(s, h->far))
        return PICK(s, INT32_MAX, INT32_MAX - 1, HALF / 2, 65536, 256 + 1);
    if (style < 8)
        return 0;
    if (style < 20)
        return 1;
    if (style < 26)
        return PICK(s, UINT32_MAX, HALF, UINT32_MAX - 1, HALF + 1,
                    HALF + (uint32_t)(draw(s) >> 33));
    return near_count(h) - h->clock.count;
}

static uint32_t some_target(struct history *h)
{
    uint64_t *s = &h->seed;
    uint32_t count = h->clock.count, style = below(s, 100);
    if (chance(s, h->far))
        return count + PICK(s, HALF, HALF - 1, HALF / 2, 65536, 256 + 1);
    if (style < 8)
        return count;
    if (style < 16)
        return count + 1;
    if (style < 30)              /* behind */
        return count - PICK(s, 1, 1, 2, INT32_MAX, INT32_MAX - 1, 40, 65536);
    if (style < 33)
        return (uint32_t)draw(s);
    return near_count(h);
}

static struct clock_message some_message(struct history *h)
{
    uint64_t *s = &h->seed;
    struct clock_message m = {0, EIGHT, 0, 0};
    uint32_t roll = below(s, h->ticks + 45);
    m.sender = some_tid(h);
    if (roll >= 45) {
        m.op = OP_TICK;
        m.sender = h->clock.notifier;
    } else if (roll >= 40) {
        m.op = OP_TIME;
    } else if (roll >= 20) {
        m.op = OP_DELAY;
        m.argument = some_delay(h);
    } else {
        m.op = OP_DELAY_UNTIL;
        m.argument = some_target(h);
    }
    return m;
}

/* A new sender may be asleep, or for a tick may be anybody. */
static void spoil(struct history *h, struct clock_message *m)
{
    uint64_t *s = &h->seed;
    switch (below(s, 6)) {
    case 0:
        m->length = PICK(s, 0, 4, 7, 9, 255, 1, 12, 16, 256, EIGHT + 256,
                         EIGHT + 65536, HALF + EIGHT, UINT32_MAX);
        break;
    case 1:
        m->op = PICK(s, 0, 5, 6, 255, UINT32_MAX, m->op + 256, m->op + 65536,
                     m->op + (1u << 24), m->op + HALF);
        break;
    case 2:
        m->op = PICK(s, OP_TICK, OP_TIME);
        m->argument = PICK(s, 1, UINT32_MAX, 256, 65536, HALF,
                           (uint32_t)draw(s));
        break;
    case 3:
        m->op = OP_TICK;
        m->argument = 0;
        m->sender = PICK(s, some_tid(h), h->clock.notifier ^ 128);
        break;
    case 4:
        m->sender = asleep_tid(h);
        break;
    default:
        m->sender = asleep_tid(h);
        m->op = PICK(s, OP_TIME, OP_DELAY, OP_DELAY, OP_DELAY_UNTIL);
        m->argument = m->op == OP_TIME ? 0 : some_delay(h);
        if (m->op == OP_DELAY_UNTIL)
            m->argument += h->clock.count;
        break;
    }
}

static void draw_message(struct history *h)
{
    struct clock_answers given;
    struct clock_message m = some_message(h);
    if (chance(&h->seed, h->spoiled))
        spoil(h, &m);
    if (m.sender == 0)           /* would be a new clock */
        m.sender = 1 + below(&h->seed, TASKS);
    clock_hear(&h->clock, &m, &given);
    clock_words(m.sender, m.length, m.op, m.argument);
}

/* Some streams begin with messages before any new clock. */
int clocks_drawn(uint64_t seed, unsigned long messages)
{
    struct history h = {.seed = seed, .ticks = 5, .span = 3, .spoiled = 10};
    clock_start(&h.clock, 0, 0);
    if (chance(&h.seed, 30))
        h.left = 1 + below(&h.seed, 30);
    for (unsigned long i = 0; i < messages; i++) {
        if (h.left == 0)
            new_clock(&h);
        draw_message(&h);
        h.left--;
    }
    return 0;
}
