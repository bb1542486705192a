/* Images for cases: good ones that no run may lead to. */
#include <string.h>

#include "images.h"
#include "pick.h"

void image_tasks(uint8_t *image, uint32_t n)
{
    memset(image, 0, IMAGE_BYTES);
    for (uint32_t i = 0; i < n; i++) {
        uint8_t *b = slot(image, i);
        b[AT_STATE] = STATE_REPLY_BLOCKED;
        b[AT_PRIORITY] = FIRST_PRIORITY;
        b[AT_PARENT] = i == 0 ? 0 : 1;
        put32(b + AT_ENTRY, entry_of(i));
    }
}

void image_mixed(uint8_t *image)
{
    static const uint8_t state[] = {
        STATE_SEND_BLOCKED, STATE_READY, STATE_ACTIVE, STATE_RECEIVE_BLOCKED,
        STATE_EVENT_BLOCKED, STATE_EXITED, STATE_READY, STATE_READY,
        STATE_REPLY_BLOCKED, STATE_RECEIVE_BLOCKED};
    image_tasks(image, MIXED);
    for (uint32_t i = 0; i < MIXED; i++) {
        uint8_t *b = slot(image, i);
        bool late = i >= COUNT(state);
        remake(b, state[i % COUNT(state)]);
        b[AT_PRIORITY] = (uint8_t)(i % 10);
        if (b[AT_STATE] == STATE_ACTIVE && late)
            b[AT_STATE] = STATE_EXITED;
        b[AT_PLACE] = uses_place(b[AT_STATE], EDITION_SOLE) && late;
        b[AT_WAITS_FOR] = b[AT_STATE] == STATE_EVENT_BLOCKED ? (uint8_t)i
                          : b[AT_STATE] == STATE_RECEIVE_BLOCKED
                          ? i % 10 == 3 ? 2 : 9 : 0;
        if (uses_message(b[AT_STATE]))
            put32(b + AT_MESSAGE, (i + 1) << 16 | (0xA0 + i));
        if (uses_reply(b[AT_STATE]))
            put32(b + AT_REPLY, 256u << 16);
        if (i % 10 == 6)         /* cut or whole, and its number */
            put32(b + AT_FROM, (late ? 0x106 : 3) | 0x1F4u << 16);
        if (i % 10 == 7)
            put32(b + AT_NUMBER, late ? UINT32_MAX : UINT32_MAX - 2);
        b[AT_RESULT] = i % 10 == 6 ? RESULT_VALUE
                       : i % 10 == 7 ? RESULT_FAULT : RESULT_NOTHING;
    }
}

void image_clear(uint8_t *image)
{
    for (uint32_t i = 0; i < TASKS; i++)
        put32(slot(image, i) + AT_ENTRY, 0);
}

void image_narrow(uint8_t *image)
{
    for (uint32_t i = 1; i < TASKS; i++)
        memmove(image + i * OLD_SLOT_BYTES, slot(image, i), OLD_SLOT_BYTES);
}

static void put_result(uint64_t *s, uint8_t *b, uint32_t n)
{
    b[5] = (uint8_t)below(s, 3);
    b[14] = b[5] == RESULT_VALUE && chance(s, 60)
                ? (uint8_t)below(s, n + 1) : 0;
    b[15] = b[5] == RESULT_VALUE && chance(s, 40);
    if (b[5] == RESULT_VALUE)
        put4(b + 16, chance(s, 20) ? INT32_MAX : chance(s, 10) ? 0
                     : (int32_t)below(s, 300));
    if (b[5] == RESULT_FAULT)
        put4(b + 16, -1 - (int32_t)below(s, 3));
}

/* One slot may be a door, at which the given share of the tasks is queued; or a
 * share of them waits for events, from the first on so many, of which edition 1
 * has all, and each with one task. */
struct crowd {
    uint32_t door, share, waiters, first, events;
    bool sole, taken[EVENTS];
};

/* A target other than itself that exists and does not wait for a sender, else
 * 0. Then no other slot is receive-blocked either, so that this one can become
 * exited and is nobody's target. */
static uint8_t free_target(uint64_t *s, uint8_t *image, uint32_t n, uint32_t i,
                           const struct crowd *c)
{
    uint32_t start = chance(s, 50) ? 0 : below(s, n);
    if (c->door < n && chance(s, c->share))
        start = c->door;
    for (uint32_t j = 0; j < n; j++) {
        uint32_t t = (start + j) % n;
        uint8_t state = slot(image, t)[0];
        if (t != i && state != STATE_SEND_BLOCKED && state != STATE_EXITED)
            return (uint8_t)(t + 1);
    }
    return 0;
}

/* By edition 1 an event that nobody waits for. */
static uint8_t some_event(uint64_t *s, struct crowd *c)
{
    uint32_t event;
    do
        event = (c->first + below(s, c->events)) % EVENTS;
    while (c->taken[event] && c->events == EVENTS);
    c->taken[event] = c->sole;
    return (uint8_t)event;
}

static void put_fields(uint64_t *s, uint8_t *image, uint32_t n, uint32_t i,
                       struct crowd *c)
{
    uint8_t *b = slot(image, i);
    if (b[0] == STATE_RECEIVE_BLOCKED &&
        !(b[4] = free_target(s, image, n, i, c)))
        b[0] = STATE_EXITED;
    if (b[0] == STATE_SEND_BLOCKED || b[0] == STATE_RECEIVE_BLOCKED)
        put_room(s, b + 6);
    if (b[0] == STATE_RECEIVE_BLOCKED || b[0] == STATE_REPLY_BLOCKED)
        put_room(s, b + 10);
    if (b[0] == STATE_READY)
        put_result(s, b, n);
    if (b[0] == STATE_EVENT_BLOCKED)
        b[4] = some_event(s, c);
}

/* Places are dealt in any order of the slots. */
static void put_places(uint64_t *s, uint8_t *image, uint32_t n)
{
    uint8_t order[TASKS], ready[PRIORITIES] = {0}, sending[TASKS + 1] = {0};
    uint8_t waiting[EVENTS] = {0};
    for (uint32_t i = 0; i < n; i++) {
        uint32_t j = below(s, i + 1);
        order[i] = order[j];
        order[j] = (uint8_t)i;
    }
    for (uint32_t i = 0; i < n; i++) {
        uint8_t *b = slot(image, order[i]);
        if (b[0] == STATE_READY)
            b[3] = ready[b[1]]++;
        if (b[0] == STATE_RECEIVE_BLOCKED)
            b[3] = sending[b[4]]++;
        if (b[0] == STATE_EVENT_BLOCKED)
            b[3] = waiting[b[4]]++; /* by edition 1 always 0 */
    }
}

/* The door is mostly the task that could exit now. */
static struct crowd some_crowd(uint64_t *s, uint32_t edition, uint32_t n,
                               uint32_t active)
{
    struct crowd c = {TASKS, 0, 0, below(s, EVENTS), EVENTS, true, {false}};
    uint32_t other = below(s, n), style = below(s, 3);
    c.sole = edition == EDITION_SOLE;
    if (!c.sole && chance(s, 70))
        c.events = (uint32_t)PICK(s, 1, 2, 5);
    if (chance(s, 25))
        c.first = chance(s, 50) ? 0 : EVENTS - c.events;
    if (chance(s, c.sole ? 5 : 20))
        c.waiters = (uint32_t)PICK(s, 40, 80, 100, 100);
    if (!c.sole && c.waiters == 100)
        c.events = 1;
    if (!chance(s, 12))
        return c;
    c.door = active < n && chance(s, 70) ? active : other;
    c.share = style == 0 ? 50 : style == 1 ? 85 : 100;
    return c;
}

static uint8_t some_state(uint64_t *s, uint32_t i, const struct crowd *c,
                          bool busy)
{
    uint8_t state = (uint8_t)(STATE_READY + below(s, 6));
    if (state == STATE_READY && !busy)
        state = STATE_EXITED;
    if (i == c->door && (state == STATE_SEND_BLOCKED || state == STATE_EXITED))
        state = chance(s, 50) ? STATE_REPLY_BLOCKED : STATE_EVENT_BLOCKED;
    if (chance(s, c->waiters))
        state = STATE_EVENT_BLOCKED;
    if (i != c->door && chance(s, c->share))
        state = STATE_RECEIVE_BLOCKED;
    return state;
}

/* Every task has one, most have one, one has one, or none. */
static void put_entries(uint64_t *s, uint8_t *image, uint32_t n)
{
    uint32_t style = below(s, 5), only = below(s, n);
    for (uint32_t i = 0; i < n; i++) {
        uint32_t entry = some_entry(s);
        if (style == 0 ? false : style == 1 ? i == only : true)
            put32(slot(image, i) + AT_ENTRY, entry);
    }
}

void image_invent(uint64_t *s, uint32_t edition, uint8_t *image)
{
    uint32_t n = chance(s, 15) ? TASKS : 1 + below(s, TASKS);
    bool busy = chance(s, 80);
    uint32_t active = busy ? below(s, n) : TASKS;
    uint32_t spread = below(s, 3);
    struct crowd crowd = some_crowd(s, edition, n, active);
    spread = spread == 0 ? 1 : spread == 1 ? 3 : PRIORITIES;
    memset(image, 0, IMAGE_BYTES);
    for (uint32_t i = 0; i < n; i++) {
        uint8_t *b = slot(image, i);
        b[0] = some_state(s, i, &crowd, busy);
        if (i == active)
            b[0] = STATE_ACTIVE;
        b[1] = (uint8_t)(spread == 1 ? 16
                         : below(s, spread) * (PRIORITIES / spread));
        b[2] = (uint8_t)(i == 0 ? 0 : 1 + below(s, i));
    }
    for (uint32_t i = 0; i < n; i++)
        put_fields(s, image, n, i, &crowd);
    put_places(s, image, n);
    put_entries(s, image, n);
}
