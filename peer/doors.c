/* A fixed list about tasks that exit with senders still queued: whole streams,
 * and cases. */
#include <string.h>

#include "images.h"

/* ---- streams: a crowd of 31 at one task, then of 30 at another ---- */

static const struct table *const k = &followed;

static uint32_t priority_of(uint32_t pattern, uint32_t tid)
{
    switch (pattern) {
    case 0:
        return FIRST_PRIORITY;
    case 1:
        return tid - 1;
    case 2:
        return TASKS - tid;
    case 3:
        return 15 + tid % 3;
    case 4:
        return tid * 7 % PRIORITIES;
    default:
        return tid % 2 ? 0 : PRIORITIES - 1;
    }
}

static bool exists(uint32_t tid)
{
    return k->task[tid].state != STATE_UNUSED &&
           k->task[tid].state != STATE_EXITED;
}

static uint32_t living(void)
{
    uint32_t count = 0;
    for (uint32_t tid = 1; tid <= k->used; tid++)
        count += exists(tid);
    return count;
}

/* Of the worst priority, so that all others come to run and to send; of these
 * the lowest or the highest tid. */
static uint32_t next_door(bool highest)
{
    uint32_t door = 0;
    for (uint32_t tid = 1; tid <= k->used; tid++)
        if (exists(tid) &&
            (door == 0 || k->task[tid].priority > k->task[door].priority ||
             (highest && k->task[tid].priority == k->task[door].priority)))
            door = tid;
    return door;
}

/* Those the last door had received stayed, and somebody else replies. */
static void reply_to_all(void)
{
    for (uint32_t tid = 1; tid <= k->used; tid++)
        if (k->task[tid].state == STATE_REPLY_BLOCKED)
            step(KIND_REPLY, tid, tid, 4, 0, 0);
}

/* Who is let go first tries the same door again. */
static void gather(uint32_t door, uint32_t last)
{
    bool tried[TASKS + 1] = {false};
    uint32_t others = living() - 1;
    while (k->active != door || k->task[door].senders.length < others) {
        uint32_t tid = k->active;
        if (tid == door)
            step(KIND_YIELD, 0, 0, 0, 0, 0);
        else if (last != 0 && !tried[tid] && tid % 2)
            step(KIND_SEND, last, 0, 1, 0, 1);
        else
            step(KIND_SEND, door, tid, tid % 5, 128 + tid, tid % 3);
        tried[tid] = true;
    }
}

int doors_run(uint32_t pattern)
{
    uint32_t last = 0;
    stream_start(EDITION_SOLE);
    while (k->used < TASKS)
        step(KIND_CREATE, priority_of(pattern, k->used + 1),
             listed_entry(k->used), 0, 0, 0);
    for (uint32_t round = 0; living() > 1; round++) {
        uint32_t door = next_door(round / 2 % 2);
        reply_to_all();
        gather(door, last);
        if (round % 3 == 1 && living() > 4) {
            step(KIND_RECEIVE, 0, 3, 0, 0, 0);
            step(KIND_RECEIVE, 8, 8, 0, 0, 0);
        }
        if (round % 4 == 3)      /* nobody waits, and the door goes on */
            step(KIND_EVENT, 5, 1, 0, 0, 0);
        step(KIND_EXIT, 0, 0, 0, 0, 0);
        last = door;
    }
    reply_to_all();
    step(KIND_MY_TID, 0, 0, 0, 0, 0);
    step(KIND_EXIT, 0, 0, 0, 0, 0);
    step(KIND_MY_TID, 0, 0, 0, 0, 0);
    step(KIND_EVENT, 5, 1, 0, 0, 0);
    return 0;
}

/* ---- cases ---- */

static uint8_t image[IMAGE_BYTES];

static void queue_up(uint32_t i, uint32_t target, uint32_t place)
{
    uint8_t *b = slot(image, i);
    remake(slot(image, i), STATE_RECEIVE_BLOCKED);
    b[3] = (uint8_t)place;
    b[4] = (uint8_t)(target + 1);
    b[6] = (uint8_t)(i + 1);     /* offset and length of the message */
    b[8] = (uint8_t)(i % 7);
    b[10] = (uint8_t)(2 * i);    /* and of the reply */
    b[12] = 9;
}

/* One sender at one target, for any two slots. The target exited, or is in one
 * of the states in which it exists and may have a sender. */
static void pair(uint32_t i, uint32_t target, enum state state, bool idle)
{
    uint32_t other = 0;
    while (other == i || other == target)
        other++;
    image_tasks(image, TASKS);
    queue_up(i, target, 0);
    remake(slot(image, target), state);
    if (state == STATE_RECEIVE_BLOCKED)
        queue_up(target, i, 0);
    if (state == STATE_EVENT_BLOCKED)
        slot(image, target)[4] = (uint8_t)(i + target);
    if (state != STATE_ACTIVE && (state == STATE_READY || !idle))
        remake(slot(image, other), STATE_ACTIVE);
}

/* The refusal by 2 comes before any of those that a request may earn. */
static struct request any_request(uint32_t n, uint32_t i, uint32_t target)
{
    int32_t tid = (int32_t)target + 1;
    const struct request q[] = {
        {KIND_MY_TID, {0}}, {KIND_EXIT, {0}}, {KIND_RECEIVE, {0, 4}},
        {KIND_SEND, {tid, 0, 4, 8, 4}}, {KIND_REPLY, {(int32_t)i + 1, 0, 4}},
        {0, {0}}, {12, {0}}, {KIND_EVENT, {64, 1}}, {KIND_EVENT, {-1, 1}},
        {KIND_EVENT, {3, 7}}, {KIND_OWN_WRITE, {256, 0}},
        {KIND_OWN_WRITE, {0, -1}}, {KIND_OWN_WRITE, {0, 65}},
        {KIND_YIELD, {0}}, {KIND_CREATE, {8}}, {KIND_AWAIT_EVENT, {3}},
        {KIND_AWAIT_EVENT, {64}}};
    return q[n % COUNT(q)];
}

static void all_pairs(void)
{
    static const enum state good[] = {
        STATE_ACTIVE, STATE_READY, STATE_RECEIVE_BLOCKED, STATE_REPLY_BLOCKED,
        STATE_EVENT_BLOCKED};
    uint32_t n = 0;
    for (uint32_t i = 0; i < TASKS; i++) {
        for (uint32_t target = 0; target < TASKS; target++) {
            struct request q = any_request(n, i, target);
            if (i == target)
                continue;
            pair(i, target, STATE_EXITED, n % 4 == 0);
            put_case(image, AREAS_BYTES, &q);
            pair(i, target, good[n % COUNT(good)], n % 4 == 0);
            put_case(image, AREAS_BYTES, &q);
            n++;
        }
    }
}

/* A target that is no task: none, the sender, a slot not yet given out, or
 * past the slots. */
static void no_targets(void)
{
    static const struct request q = {KIND_EXIT, {0}};
    static const uint8_t past[] = {33, 34, 48, 64, 65, 127, 128, 129, 255};
    for (uint32_t n = 2; n <= TASKS; n++) {
        for (uint32_t target = 0; target <= TASKS; target++) {
            if (target != 0 && target != n && target != n + 1 &&
                target != TASKS)
                continue;
            image_tasks(image, TASKS);
            memset(slot(image, n), 0, (TASKS - n) * SLOT_BYTES);
            remake(slot(image, 0), STATE_ACTIVE);
            queue_up(n - 1, 0, 0);
            slot(image, n - 1)[4] = (uint8_t)target;
            put_case(image, AREAS_BYTES, &q);
        }
    }
    for (unsigned i = 0; i < COUNT(past); i++) {
        slot(image, TASKS - 1)[4] = past[i];
        put_case(image, AREAS_BYTES, &q);
    }
}

/* The areas come before the table. */
static void other_areas(void)
{
    pair(3, 5, STATE_EXITED, false);
    put_case(image, AREAS_BYTES - 1, &(struct request){KIND_EXIT, {0}});
    put_case(image, AREAS_BYTES + 1, &(struct request){KIND_EXIT, {0}});
}

/* Each place once, in an order that is not always that of the slots. */
static uint32_t place_of(uint32_t nth, uint32_t senders, uint32_t order)
{
    return order == 0 ? nth : order == 1 ? senders - 1 - nth
           : (nth + senders / 2) % senders;
}

/* Exit of the door; who does not stand there is ready, at priorities of those
 * who do, or blocked otherwise. */
static void crowd(uint32_t door, uint32_t senders, uint32_t order,
                  uint32_t spread)
{
    static const struct request q = {KIND_EXIT, {1, 2, 3, 4, 5}};
    uint8_t ready[PRIORITIES] = {0};
    image_tasks(image, TASKS);
    remake(slot(image, door), STATE_ACTIVE);
    for (uint32_t nth = 0; nth < TASKS - 1; nth++) {
        uint32_t i = (door + 1 + nth) % TASKS;
        slot(image, i)[1] = (uint8_t)(spread == 0 ? FIRST_PRIORITY
                                      : i % spread);
        if (nth < senders) {
            queue_up(i, door, place_of(nth, senders, order));
        } else if (nth % 3 == 0) {
            remake(slot(image, i), STATE_READY);
            slot(image, i)[3] = ready[slot(image, i)[1]]++;
        } else if (nth % 3 == 1) {
            queue_up(i, (door + 1) % TASKS, (nth - senders) / 3);
        }
    }
    put_case(image, AREAS_BYTES, &q);
}

int doors_cases(void)
{
    static const uint32_t door[] = {0, 1, 15, 30, 31};
    static const uint32_t senders[] = {1, 2, 3, 17, 30, 31};
    static const uint32_t spread[] = {0, 2, PRIORITIES};
    all_pairs();
    no_targets();
    other_areas();
    for (unsigned d = 0; d < COUNT(door); d++)
        for (unsigned n = 0; n < COUNT(senders); n++)
            for (uint32_t order = 0; order < 3; order++)
                for (unsigned p = 0; p < COUNT(spread); p++)
                    crowd(door[d], senders[n], order, spread[p]);
    return 0;
}
