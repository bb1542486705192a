/* Chooses requests by looking at the kernel they will meet. */
#include <string.h>

#include "generate.h"
#include "pick.h"

static int32_t odd_number(uint64_t *seed)
{
    if (chance(seed, 30))
        return (int32_t)((int64_t)(draw(seed) >> 32) + INT32_MIN);
    return PICK(seed, -1, -2, -5, 0, 1, 2, 11, 12, 31, 32, 33, 63, 64, 255,
                256, 257, 511, 65535, 65536, INT32_MAX, INT32_MIN,
                INT32_MAX - 1, 16777217, -256);
}

/* ---- the world ---- */

void world_habits(struct world *w)
{
    uint64_t *s = &w->seed;
    w->priorities = below(s, 3);
    w->exits = (uint32_t)PICK(s, 0, 0, 1, 1, 4);
    w->leaves = (uint32_t)PICK(s, 0, 0, 2, 20);
    w->doors = (uint32_t)PICK(s, 0, 0, 1, 3, 30);
    w->least = (uint32_t)PICK(s, 4, 10, 18);
    w->creates = (uint32_t)PICK(s, 4, 12, 30);
    w->sends = (uint32_t)PICK(s, 5, 12, 25);
    w->hot = 1 + below(s, 4);
    w->mortal = chance(s, 10);
    w->flock = (uint32_t)PICK(s, 15, 15, 60);
    w->bells = (uint32_t)PICK(s, 0, 2, 10, 40);
}

void world_start(struct world *w, uint64_t seed, uint32_t edition,
                 uint32_t priority, uint32_t entry)
{
    memset(w, 0, sizeof *w);
    w->seed = seed;
    table_start(&w->table, edition, priority, entry);
    world_habits(w);
}

/* The tid of a task in this state, else 0. */
static uint32_t some_task(struct world *w, enum state state)
{
    uint32_t start = below(&w->seed, w->table.used);
    for (uint32_t i = 0; i < w->table.used; i++) {
        uint32_t tid = 1 + (start + i) % w->table.used;
        if (w->table.task[tid].state == state)
            return tid;
    }
    return 0;
}

bool world_exists(const struct table *k, uint32_t tid)
{
    return !is(k, tid, STATE_UNUSED) && !is(k, tid, STATE_EXITED);
}

uint32_t world_living(const struct table *k)
{
    uint32_t count = 0;
    for (uint32_t tid = 1; tid <= k->used; tid++)
        count += world_exists(k, tid);
    return count;
}

/* The tid of a task that exists, else 0. */
uint32_t world_some_living(struct world *w)
{
    uint32_t start = below(&w->seed, w->table.used);
    for (uint32_t i = 0; i < w->table.used; i++) {
        uint32_t tid = 1 + (start + i) % w->table.used;
        if (world_exists(&w->table, tid))
            return tid;
    }
    return 0;
}

/* Tasks that can never go on: queued in a ring, or behind one. */
uint32_t world_stuck(const struct table *k)
{
    uint32_t count = 0;
    for (uint32_t tid = 1; tid <= k->used; tid++) {
        uint32_t t = tid;
        for (int hops = 0; hops < TASKS && is(k, t, STATE_RECEIVE_BLOCKED);
             hops++)
            t = k->task[t].waits_for;
        count += is(k, t, STATE_RECEIVE_BLOCKED);
    }
    return count;
}

/* No task runs and no event can wake one. */
bool world_dead(const struct table *k)
{
    if (k->active)
        return false;
    for (uint32_t tid = 1; tid <= k->used; tid++)
        if (is(k, tid, STATE_EVENT_BLOCKED))
            return false;
    return true;
}

/* ---- arguments ---- */

/* Would a Send to this task wait for the caller itself, or for nobody? */
static bool in_vain(const struct table *k, uint32_t t)
{
    for (int hops = 0; hops < TASKS && is(k, t, STATE_RECEIVE_BLOCKED);
         hops++) {
        t = k->task[t].waits_for;
        if (t == k->active)
            return true;
    }
    return is(k, t, STATE_RECEIVE_BLOCKED) || !world_exists(k, t);
}

static int32_t send_target(struct world *w)
{
    uint64_t *s = &w->seed;
    const struct table *k = &w->table;
    uint32_t t, style = below(s, 100);
    if (style < 3)
        return PICK(s, 0, -1, 32, 33, (int32_t)k->used + 1, INT32_MAX,
                    INT32_MIN, 256 + 1, (int32_t)k->active);
    if (style < 7 && (t = some_task(w, STATE_EXITED)))
        return (int32_t)t;
    if (style < 40 && (t = some_task(w, STATE_SEND_BLOCKED)))
        return (int32_t)t;
    if (w->hot <= k->used && !world_exists(k, w->hot))
        w->hot = world_some_living(w);
    if (style < 70 && w->hot <= k->used && w->hot != k->active &&
        !in_vain(k, w->hot))
        return (int32_t)w->hot;
    for (int tries = 0; tries < 8; tries++) {
        t = world_some_living(w);
        if (t != k->active && !in_vain(k, t))
            return (int32_t)t;
    }
    return 1 + (int32_t)below(s, k->used);
}

static int32_t reply_target(struct world *w)
{
    uint64_t *s = &w->seed;
    uint32_t t = some_task(w, STATE_REPLY_BLOCKED);
    if (t && chance(s, 90))
        return (int32_t)t;
    if (chance(s, 30))
        return PICK(s, 0, -1, 32, 33, (int32_t)w->table.used + 1, INT32_MAX);
    return 1 + (int32_t)below(s, w->table.used);
}

static int32_t new_priority(struct world *w)
{
    if (w->priorities == 0)
        return FIRST_PRIORITY;
    if (w->priorities == 1)
        return FIRST_PRIORITY - 2 + (int32_t)below(&w->seed, 5);
    return (int32_t)below(&w->seed, PRIORITIES);
}

static int32_t some_event(struct world *w, uint32_t waited)
{
    uint32_t t = some_task(w, STATE_EVENT_BLOCKED);
    if (t && chance(&w->seed, waited))
        return (int32_t)w->table.task[t].waits_for;
    if (chance(&w->seed, 5))
        return PICK(&w->seed, 63, 64, -1, INT32_MAX, INT32_MIN, 65);
    return (int32_t)below(&w->seed, EVENTS);
}

static int32_t some_data(struct world *w)
{
    return chance(&w->seed, 60)
               ? (int32_t)below(&w->seed, 1000)
               : PICK(&w->seed, 0, -5, INT32_MAX, -1, INT32_MIN, 1, 65536);
}

/* The buffer from or into which the request would copy, NULL if none. */
static const struct buffer *other_end(const struct table *k,
                                      const struct request *q)
{
    const struct queue *senders = &k->task[k->active].senders;
    bool slot = q->arg[0] >= 1 && q->arg[0] <= TASKS;
    uint32_t tid = slot ? (uint32_t)q->arg[0] : 0;
    if (q->kind == KIND_RECEIVE)
        return senders->length > 0 ? &k->task[senders->head].message : NULL;
    if (q->kind == KIND_SEND && is(k, tid, STATE_SEND_BLOCKED))
        return &k->task[tid].message;
    if (q->kind == KIND_REPLY && is(k, tid, STATE_REPLY_BLOCKED))
        return &k->task[tid].reply;
    return NULL;
}

void world_fill(struct world *w, struct request *q)
{
    uint64_t *s = &w->seed;
    const struct table *k = &w->table;
    switch (q->kind) {
    case KIND_CREATE:
        q->arg[0] = chance(s, 4) ? PICK(s, -1, 32, 0, 31, 255, INT32_MIN)
                                 : new_priority(w);
        q->arg[1] = (int32_t)some_entry(s);
        break;
    case KIND_SEND:
        q->arg[0] = send_target(w);
        room_facing(w, q->arg + 1, other_end(k, q));
        room(w, q->arg + 3);
        break;
    case KIND_RECEIVE:
        room_facing(w, q->arg, other_end(k, q));
        break;
    case KIND_REPLY:
        q->arg[0] = reply_target(w);
        room_facing(w, q->arg + 1, other_end(k, q));
        break;
    case KIND_AWAIT_EVENT:
        q->arg[0] = some_event(w, w->flock);
        break;
    case KIND_EVENT:
        q->arg[0] = some_event(w, 75);
        q->arg[1] = some_data(w);
        break;
    case KIND_OWN_WRITE:
        q->arg[0] = chance(s, 10) ? PICK(s, 255, 256, -1, INT32_MAX)
                                  : (int32_t)below(s, AREA);
        q->arg[1] = chance(s, 10) ? PICK(s, 255, 256, -1, INT32_MIN)
                                  : (int32_t)below(s, 256);
        break;
    default:
        break;
    }
}

/* ---- kinds ---- */

static int32_t busy_kind(struct world *w)
{
    uint32_t weight[12] = {0, 2, 3, 4, 6, 0, 0, 0, 4, 5, 12, 6};
    uint32_t senders = w->table.task[w->table.active].senders.length;
    uint32_t sum = 0;
    if (w->table.used < TASKS)
        weight[KIND_CREATE] = w->creates;
    weight[KIND_EXIT] = w->exits;
    if (senders > 0 && world_living(&w->table) > w->least)
        weight[KIND_EXIT] += w->leaves;
    if (some_task(w, STATE_REPLY_BLOCKED))
        weight[KIND_REPLY] = 24;
    weight[KIND_SEND] = w->sends;
    weight[KIND_RECEIVE] = senders > 0 ? 40 : 1 + w->sends / 2;
    for (int i = KIND_CREATE; i <= KIND_OWN_WRITE; i++)
        sum += weight[i];
    uint32_t at = below(&w->seed, sum);
    int32_t kind = KIND_CREATE;
    while (at >= weight[kind])
        at -= weight[kind++];
    return kind;
}

/* While idle only an event does anything. */
static int32_t idle_kind(struct world *w)
{
    return chance(&w->seed, 85) ? KIND_EVENT
                                : 1 + (int32_t)below(&w->seed, KIND_OWN_WRITE);
}

static void spoil(struct world *w, struct request *q)
{
    uint64_t *s = &w->seed;
    uint32_t at = below(s, 5);
    switch (below(s, 5)) {
    case 0:
        q->kind = PICK(s, 0, -1, 12, 13, INT32_MAX, INT32_MIN, 257, 65537);
        break;
    case 1:
        q->kind = PICK(s, 10, 11, 1, 6, 7, 8, 9);
        q->arg[0] = odd_number(s);
        break;
    case 2:
        q->arg[at] = odd_number(s);
        break;
    case 3:
        for (int i = 0; i < 5; i++)
            q->arg[i] = odd_number(s);
        break;
    default:
        room_bad(w, q->arg + below(s, 4), q->arg + 4);
        break;
    }
}

struct request world_choose(struct world *w)
{
    struct request q = {0, {0}};
    /* what a kind does not name must not matter */
    if (chance(&w->seed, 50))
        for (int i = 0; i < 5; i++)
            q.arg[i] = odd_number(&w->seed);
    q.kind = w->table.active ? busy_kind(w) : idle_kind(w);
    if (w->table.active || q.kind >= KIND_EVENT)
        world_fill(w, &q);
    if (chance(&w->seed, 10))
        spoil(w, &q);
    return q;
}
