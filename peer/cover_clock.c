/* What is counted of the clock in a -DCOVER build. */
#include "cover.h"

#include <string.h>

/* Who would sleep where in a clock that takes the lowest free place; only so
 * can a place be the lower one and its sleeper the later one. */
static struct {
    uint32_t tid; /* 0: free */
    enum clock_op op;
    uint32_t heard_at;
    bool used_before;
} place[CLOCK_PLACES];

static bool past_first_clock;

void cover_no_sleepers(void)
{
    memset(place, 0, sizeof place);
}

void cover_recorded(const struct clock *c, const struct clock_message *m)
{
    MARK_IF(m->sender != 0 && !past_first_clock, CLOCK_BEFORE);
    MARK_IF(m->sender > TASKS, CLOCK_FAR_TID);
    if (m->sender == 0) {
        past_first_clock = true;
        MARK(CLOCK_NEW);
        MARK_IF(c->asleep > 0, CLOCK_NEW_ASLEEP);
    }
}

static bool is_a_delay(const struct clock_message *m)
{
    return m->op == OP_DELAY || m->op == OP_DELAY_UNTIL;
}

static bool is_negative(const struct clock_message *m)
{
    return m->op == OP_DELAY && m->argument >> 31;
}

static bool is_full(const struct clock *c)
{
    return c->asleep == CLOCK_PLACES;
}

/* Wrong is the length, and what else the two words would have been. */
static void wrong_length(const struct clock *c, const struct clock_message *m)
{
    bool due = clock_is_due(c->count, clock_due(c, m));
    MARK(m->length == 0 ? CLOCK_EMPTY
         : m->length < CLOCK_MESSAGE_BYTES ? CLOCK_SHORT : CLOCK_LONG);
    MARK_IF(m->op == OP_TICK && m->argument == 0 && m->sender == c->notifier,
            CLOCK_LENGTH_TICK);
    MARK_IF(m->op == OP_TIME && m->argument == 0, CLOCK_LENGTH_TIME);
    if (!is_a_delay(m) || clock_is_asleep(c, m->sender))
        return;
    if (is_negative(m))
        MARK(CLOCK_LENGTH_2);
    else if (due)
        MARK(CLOCK_LENGTH_ONCE);
    else
        MARK(is_full(c) ? CLOCK_LENGTH_3 : CLOCK_LENGTH_SLEEP);
}

static void wrong_sleeper(const struct clock *c, const struct clock_message *m)
{
    bool due = clock_is_due(c->count, clock_due(c, m));
    bool until = m->op == OP_DELAY_UNTIL;
    if (is_negative(m)) {
        MARK(is_full(c) ? CLOCK_ASLEEP_2_FULL : CLOCK_ASLEEP_2);
        return;
    }
    MARK_IF(!until, due ? CLOCK_ASLEEP_ZERO : CLOCK_ASLEEP_DELAY);
    MARK_IF(until, due ? CLOCK_ASLEEP_DUE : CLOCK_ASLEEP_UNTIL);
    MARK_IF(!due && is_full(c), CLOCK_ASLEEP_3);
}

/* Of several reasons only the first is counted. */
static void wrong(const struct clock *c, const struct clock_message *m)
{
    if (m->length != CLOCK_MESSAGE_BYTES) {
        wrong_length(c, m);
    } else if (m->op < OP_TICK || m->op > OP_DELAY_UNTIL) {
        MARK(m->op == 0 ? CLOCK_OP_NONE : CLOCK_OP_PAST);
    } else if (is_a_delay(m)) {
        wrong_sleeper(c, m);
    } else if (m->argument != 0) {
        MARK_IF(m->op == OP_TIME, CLOCK_TIME_ARGUMENT);
        MARK_IF(m->op == OP_TICK && m->sender == c->notifier,
                CLOCK_TICK_ARGUMENT);
    } else {
        MARK(c->notifier == 0 ? CLOCK_TICK_NOBODY
             : clock_is_asleep(c, m->sender) ? CLOCK_TICK_SLEEPER
             : CLOCK_TICK_OTHER);
    }
}

static void at_once(const struct clock *c, const struct clock_message *m)
{
    uint32_t behind = c->count - m->argument;
    if (m->op == OP_DELAY) {
        MARK(is_full(c) ? CLOCK_ZERO_FULL : CLOCK_ZERO);
        return;
    }
    MARK_IF(behind == 0, CLOCK_DUE_NOW);
    MARK_IF(behind == 1, CLOCK_DUE_ONE);
    MARK_IF(behind == INT32_MAX, CLOCK_DUE_MOST);
    MARK_IF(m->argument > c->count, CLOCK_DUE_WRAPPED);
    MARK_IF(is_full(c), CLOCK_DUE_FULL);
}

void cover_heard(const struct clock *c, const struct clock_message *m,
                 int32_t status)
{
    if (status == STATUS_WRONG) {
        wrong(c, m);
    } else if (status == STATUS_NEGATIVE) {
        MARK(is_full(c) ? CLOCK_NEGATIVE_FULL : CLOCK_NEGATIVE);
        MARK_IF(m->argument == UINT32_MAX, CLOCK_NEGATIVE_ONE);
        MARK_IF(m->argument == UINT32_C(1) << 31, CLOCK_NEGATIVE_MOST);
    } else if (status == STATUS_FULL) {
        MARK(m->op == OP_DELAY ? CLOCK_FULL_DELAY : CLOCK_FULL_UNTIL);
    } else if (m->op == OP_TIME) {
        MARK(clock_is_asleep(c, m->sender) ? CLOCK_TIME_ASLEEP : CLOCK_TIME);
        MARK_IF(is_full(c), CLOCK_TIME_FULL);
    } else if (is_a_delay(m) && clock_is_due(c->count, clock_due(c, m))) {
        at_once(c, m);
    }
}

static void take_place(const struct clock *c, const struct clock_message *m)
{
    int i = 0;
    while (i < CLOCK_PLACES - 1 && place[i].tid != 0)
        i++;
    MARK_IF(place[i].used_before, CLOCK_AGAIN);
    MARK_IF(c->asleep == CLOCK_PLACES - 1,
            place[i].used_before ? CLOCK_AGAIN_LAST : CLOCK_LAST_PLACE);
    place[i].tid = m->sender;
    place[i].op = (enum clock_op)m->op;
    place[i].heard_at = c->count;
    place[i].used_before = true;
}

void cover_sleeps(const struct clock *c, const struct clock_message *m,
                  uint32_t due)
{
    uint32_t ahead = due - c->count;
    bool wraps = due != 0 && due < c->count;
    if (m->op == OP_DELAY) {
        MARK(CLOCK_DELAY_SLEEPS);
        MARK_IF(ahead == 1, CLOCK_DELAY_ONE);
        MARK_IF(ahead == INT32_MAX, CLOCK_DELAY_MOST);
        MARK_IF(wraps, CLOCK_DELAY_WRAPS);
        MARK_IF(due == 0, CLOCK_DELAY_TO_WRAP);
    } else {
        MARK(CLOCK_UNTIL_SLEEPS);
        MARK_IF(ahead == 1, CLOCK_UNTIL_ONE);
        MARK_IF(ahead == INT32_MAX, CLOCK_UNTIL_NEAR);
        MARK_IF(ahead == UINT32_C(1) << 31, CLOCK_UNTIL_MOST);
        MARK_IF(wraps, CLOCK_UNTIL_WRAPS);
        MARK_IF(due == 0, CLOCK_UNTIL_TO_WRAP);
    }
    MARK_IF(m->sender == c->notifier, CLOCK_NOTIFIER_SLEEPS);
    take_place(c, m);
}

/* Frees the places of those woken, who are all answers but the first. */
static void leave_places(const struct clock *c,
                         const struct clock_answers *given)
{
    int last = 0;
    unsigned sorts = 0;
    for (uint32_t i = 1; i < given->number; i++) {
        uint32_t tid = given->answer[i].tid;
        int at = 0;
        while (at < CLOCK_PLACES - 1 && place[at].tid != tid)
            at++;
        MARK_IF(i > 1 && at < last, CLOCK_WAKES_PLACES);
        MARK_IF(i > 1 && tid < given->answer[i - 1].tid, CLOCK_WAKES_TIDS);
        MARK_IF(tid == c->notifier, CLOCK_WAKES_NOTIFIER);
        MARK_IF(place[at].heard_at > c->count && c->count != 0,
                CLOCK_WAKES_AFTER);
        sorts |= 1u << place[at].op;
        last = at;
        place[at].tid = 0;
    }
    MARK_IF(sorts == (1u << OP_DELAY | 1u << OP_DELAY_UNTIL),
            CLOCK_WAKES_SORTS);
}

void cover_ticked(const struct clock *c, const struct clock_answers *given)
{
    uint32_t woken = given->number - 1;
    MARK_IF(woken == 0, c->asleep ? CLOCK_TICK_PASSES : CLOCK_TICK_ALONE);
    MARK_IF(woken == 1, CLOCK_WAKES_ONE);
    MARK_IF(woken > 1, CLOCK_WAKES_SEVERAL);
    MARK_IF(woken == CLOCK_PLACES, CLOCK_WAKES_ALL);
    MARK_IF(woken > 0 && c->asleep > 0, CLOCK_WAKES_SOME);
    MARK_IF(c->count == 0, CLOCK_WRAPS);
    MARK_IF(c->count == 0 && woken == 0 && c->asleep > 0, CLOCK_WRAPS_PASSES);
    MARK_IF(c->count == 0 && woken > 0, CLOCK_WRAPS_WAKES);
    MARK_IF(c->count == UINT32_C(1) << 31, CLOCK_HALF);
    leave_places(c, given);
}
