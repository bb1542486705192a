/* What many requests together are to lead to: tasks that exit with senders
 * queued, events with a crowd of waiters, and a kernel that goes on. */
#include "generate.h"
#include "pick.h"

/* ---- doors ---- */

/* A task exits once, and left to chance mostly while nobody is queued at it. So
 * now and then one is chosen to be a door: the others are made to queue there,
 * and when enough of them do it exits. */
static void mind_door(struct world *w)
{
    uint64_t *s = &w->seed;
    if (w->door && (w->patience-- == 0 || !world_exists(&w->table, w->door)))
        w->door = 0;
    if (w->door || !chance(s, w->doors) || world_living(&w->table) <= w->least)
        return;
    w->door = world_some_living(w);
    w->crowd = 1 + below(s, (uint32_t)PICK(s, 1, 3, 8, TASKS - 1));
    w->patience = 20 + below(s, 150);
}

static bool has_ready(const struct table *k)
{
    for (int p = 0; p < PRIORITIES; p++)
        if (k->ready[p].length > 0)
            return true;
    return false;
}

/* The door lets the others run until enough of them are queued. It waits in
 * several states meanwhile, and may receive some of them, who then stay. */
static int32_t door_kind(struct world *w)
{
    uint32_t senders = w->table.task[w->door].senders.length;
    if (senders >= w->crowd || (senders > 0 && !has_ready(&w->table)))
        return KIND_EXIT;
    if (senders > 0 && chance(&w->seed, 20))
        return KIND_RECEIVE;
    return PICK(&w->seed, KIND_YIELD, KIND_YIELD, KIND_AWAIT_EVENT,
                KIND_AWAIT_EVENT, KIND_SEND, KIND_CREATE);
}

/* ---- bells ---- */

/* Waiters of one event come together seldom if they are left to chance. So now
 * and then an event is chosen that all are made to wait for, and when enough of
 * them do it happens. Where one alone may wait the others are told so. */
static void mind_bell(struct world *w)
{
    uint64_t *s = &w->seed;
    if (w->hearers && w->hope-- == 0)
        w->hearers = 0;
    if (w->hearers || !chance(s, w->bells))
        return;
    if (chance(s, 50))           /* else the one before, for the same tasks */
        w->bell = chance(s, 20) ? (EVENTS - 1) * below(s, 2)
                                : below(s, EVENTS);
    w->hearers = 1 + below(s, (uint32_t)PICK(s, 1, 3, 8, TASKS));
    if (chance(s, 15))
        w->hearers = TASKS;
    w->hope = 10 + w->hearers + below(s, 80);
}

static void bell_request(struct world *w, struct request *q)
{
    uint32_t waiting = w->table.waiters[w->bell].length;
    bool rings = !w->table.active || waiting >= w->hearers ||
                 (waiting > 1 && !has_ready(&w->table));
    q->kind = rings ? KIND_EVENT : KIND_AWAIT_EVENT;
    world_fill(w, q);
    q->arg[0] = (int32_t)w->bell;
    if (rings && waiting > 0)
        w->hearers = 0;
}

/* The event of a crowd happens, or one more joins it, if there is one. */
void world_ring(struct world *w, struct request *q)
{
    uint32_t start = below(&w->seed, EVENTS);
    for (uint32_t i = 0; i < EVENTS; i++) {
        uint32_t event = (start + i) % EVENTS;
        if (w->table.waiters[event].length < 2)
            continue;
        q->kind = w->table.active && chance(&w->seed, 30) ? KIND_AWAIT_EVENT
                                                          : KIND_EVENT;
        world_fill(w, q);
        q->arg[0] = (int32_t)event;
        return;
    }
}

static struct request planned(struct world *w)
{
    struct request q = world_choose(w);
    mind_door(w);
    mind_bell(w);
    if (chance(&w->seed, 15))
        return q;
    if (w->hearers && (!w->door || chance(&w->seed, 50))) {
        bell_request(w, &q);
        return q;
    }
    if (!w->door || !w->table.active)
        return q;
    q.kind = w->door == w->table.active ? door_kind(w) : KIND_SEND;
    world_fill(w, &q);
    if (w->door != w->table.active)
        q.arg[0] = (int32_t)w->door;
    return q;
}

/* Tries a request on a copy, and looks for another if all would stand still,
 * or, mostly, if it would leave one more task stuck. */
struct request world_live(struct world *w)
{
    static struct table copy;
    static uint8_t areas[AREAS_BYTES];
    struct request q = planned(w);
    if (w->mortal || world_dead(&w->table))
        return q;
    for (int tries = 0; tries < 50; tries++) {
        copy = w->table;
        table_step(&copy, areas, &q);
        if (!world_dead(&copy) &&
            (world_stuck(&copy) <= world_stuck(&w->table) ||
             chance(&w->seed, 3)))
            break;
        q = world_choose(w);
    }
    return q;
}
