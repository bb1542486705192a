/* The clock: it hears one message at a time and gives all answers to it. */
#include "clock.h"

#include "cover.h"

/* Counts wrap, so none is the latest: seen from any count, half of them are
   behind it or at it, and half ahead. */
#define HALF_OF_COUNTS (UINT32_C(1) << 31)

bool clock_is_due(uint32_t count, uint32_t due)
{
    return (uint32_t)(count - due) < HALF_OF_COUNTS;
}

/* The one row of sleepers can hold both sorts of delay: a Delay too ends at
   a count, and no Delay is long enough for that count to lie behind. */
uint32_t clock_due(const struct clock *c, const struct clock_message *m)
{
    return m->op == OP_DELAY ? c->count + m->argument : m->argument;
}

bool clock_is_asleep(const struct clock *c, uint32_t tid)
{
    for (uint32_t i = 0; i < c->asleep; i++)
        if (c->sleeper[i].tid == tid)
            return true;
    return false;
}

static bool is_delay(const struct clock_message *m)
{
    return m->op == OP_DELAY || m->op == OP_DELAY_UNTIL;
}

/* With another length the two words are partly left over from an earlier
   message, or only the beginning of this one; so the length comes first. */
static bool has_a_form(const struct clock_message *m)
{
    if (m->length != CLOCK_MESSAGE_BYTES)
        return false;
    if (m->op == OP_TICK || m->op == OP_TIME)
        return m->argument == 0;
    return is_delay(m);
}

static bool is_wrong(const struct clock *c, const struct clock_message *m)
{
    return !has_a_form(m)
        || (m->op == OP_TICK && m->sender != c->notifier)
        || (is_delay(m) && clock_is_asleep(c, m->sender));
}

static int32_t status_of(const struct clock *c, const struct clock_message *m)
{
    if (is_wrong(c, m))
        return STATUS_WRONG;
    if (m->op == OP_DELAY && m->argument > INT32_MAX) /* the sign's bit */
        return STATUS_NEGATIVE;
    if (is_delay(m) && c->asleep == CLOCK_PLACES
        && !clock_is_due(c->count, clock_due(c, m)))
        return STATUS_FULL;
    return STATUS_GOOD;
}

static void answer(struct clock_answers *given, uint32_t tid, int32_t status,
                   uint32_t count)
{
    given->answer[given->number++]
        = (struct clock_answer){ tid, status, count };
}

/* Those not yet due close up behind each other, which keeps them in order of
   arrival and leaves the places of the others at the end, free. */
static void tick(struct clock *c, struct clock_answers *given)
{
    uint32_t still = 0;

    c->count++;
    answer(given, c->notifier, STATUS_GOOD, c->count);
    for (uint32_t i = 0; i < c->asleep; i++) {
        struct sleeper s = c->sleeper[i];

        if (clock_is_due(c->count, s.due))
            answer(given, s.tid, STATUS_GOOD, c->count);
        else
            c->sleeper[still++] = s;
    }
    c->asleep = still;
    MARK_TICKED(c, given);
}

static void delay(struct clock *c, const struct clock_message *m,
                  struct clock_answers *given)
{
    uint32_t due = clock_due(c, m);

    if (clock_is_due(c->count, due)) {
        answer(given, m->sender, STATUS_GOOD, c->count);
    } else {
        MARK_SLEEPS(c, m, due);
        c->sleeper[c->asleep++] = (struct sleeper){ m->sender, due };
    }
}

void clock_start(struct clock *c, uint32_t notifier, uint32_t count)
{
    *c = (struct clock){ .notifier = notifier, .count = count };
    MARK_NO_SLEEPERS();
}

void clock_hear(struct clock *c, const struct clock_message *m,
                struct clock_answers *given)
{
    int32_t status = status_of(c, m);

    MARK_HEARD(c, m, status);
    given->number = 0;
    if (status != STATUS_GOOD)
        answer(given, m->sender, status, 0);
    else if (m->op == OP_TICK)
        tick(c, given);
    else if (m->op == OP_TIME)
        answer(given, m->sender, STATUS_GOOD, c->count);
    else
        delay(c, m, given);
}
