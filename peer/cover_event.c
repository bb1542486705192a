/* Counts who waits for events and is woken, and what an image says of it. */
#include "cover.h"
#include "stored.h"

#include <string.h>

/* What no table tells of a task. */
static struct {
    bool woken, several;  /* its result is that of an event; it was not alone */
    uint32_t edition, last; /* by which; and the event that did, plus 1 */
    unsigned long entry;  /* at which it was woken */
} past[TASKS + 1];

/* The event in hand, if it woke several; none, while number is 0. */
static struct {
    uint32_t number, head, interrupted;
    bool is_in[TASKS + 1];
} woken;

static unsigned long entry;
static struct table before; /* that a step through an image begins with */

void cover_event_forget(void)
{
    memset(past, 0, sizeof past);
}

static uint32_t waiting_for_others(const struct table *k, uint32_t event)
{
    uint32_t count = 0;
    for (uint32_t i = 0; i < EVENTS; i++)
        count += i == event ? 0 : k->waiters[i].length;
    return count;
}

void cover_await(const struct table *k, int32_t event)
{
    uint32_t second = k->edition - EDITION_SOLE, length;
    if (event < 0 || event >= EVENTS) {
        MARK(AWAIT_RANGE_1 + second);
        return;
    }
    length = k->waiters[event].length;
    MARK_IF(length == 0, AWAIT_FIRST_1 + second);
    MARK_IF(length > 0 && second == 0, AWAIT_TAKEN);
    MARK_IF(length == 1 && second == 1, AWAIT_SECOND);
    MARK_IF(length > 1, AWAIT_LATER);
    MARK_IF(length == TASKS - 1, AWAIT_LAST);
    MARK_IF(waiting_for_others(k, (uint32_t)event) > 0,
            AWAIT_OTHER_1 + second);
    MARK_IF(past[k->active].last == (uint32_t)event + 1,
            AWAIT_AGAIN_1 + second);
}

static uint32_t sort_of(int32_t data)
{
    return data < 0 ? 0 : data == 0 ? 1 : 2;
}

/* One of several waiters, and those who came after it. */
static void count_woken(const struct table *k, uint32_t tid)
{
    const struct task *t = &k->task[tid];
    uint32_t own = k->task[k->active].priority;
    if (k->active != 0)
        MARK(t->priority < own ? WOKEN_ABOVE
             : t->priority == own ? WOKEN_EQUAL : WOKEN_BELOW);
    MARK(k->ready[t->priority].length > 0 ? WOKEN_TAIL : WOKEN_FIRST_READY);
    MARK_IF(t->senders.length > 0, SEVERAL_SENDERS);
    for (uint32_t later = t->next; later != 0; later = k->task[later].next) {
        const struct task *other = &k->task[later];
        if (other->priority == t->priority)
            MARK(tid < later ? WOKEN_ALIKE : WOKEN_TIDS);
        else
            MARK(other->priority < t->priority ? WOKEN_BETTER_LAST
                                               : WOKEN_BETTER_FIRST);
    }
}

static void count_several(const struct table *k, const struct queue *waiters,
                          uint32_t event, int32_t data)
{
    uint32_t again = 0;
    MARK(k->active ? SEVERAL_ACTIVE : SEVERAL_IDLE);
    MARK(SEVERAL_CORRUPT + sort_of(data));
    MARK_IF(k->active && waiters->length == TASKS - 1, SEVERAL_MOST);
    MARK_IF(waiters->length == TASKS, SEVERAL_ALL);
    MARK_IF(waiting_for_others(k, event) > 0, SEVERAL_STAY);
    woken.number = waiters->length;
    woken.head = waiters->head;
    woken.interrupted = k->active;
    for (uint32_t tid = waiters->head; tid != 0; tid = k->task[tid].next) {
        count_woken(k, tid);
        woken.is_in[tid] = true;
        again += past[tid].several && past[tid].last == event + 1;
    }
    MARK_IF(again > 1, SEVERAL_AGAIN);
}

void cover_happens(const struct table *k, const struct request *q)
{
    uint32_t second = k->edition - EDITION_SOLE, event = (uint32_t)q->arg[0];
    const struct queue *waiters = &k->waiters[event];
    if (waiters->length == 0) {
        MARK((k->active ? EVENT_NONE_ACTIVE_1 : EVENT_NONE_IDLE_1) + second);
        MARK_IF(COVER_COMPANY(k), EVENT_TURNS_1 + second);
        MARK_IF(waiting_for_others(k, event) > 0, EVENT_ELSEWHERE_1 + second);
    } else if (waiters->length == 1) {
        MARK((k->active ? EVENT_ONE_ACTIVE_1 : EVENT_ONE_IDLE_1) + second);
        MARK(EVENT_CORRUPT_1 + 2 * sort_of(q->arg[1]) + second);
    } else {
        count_several(k, waiters, event, q->arg[1]);
    }
    for (uint32_t tid = waiters->head, i = waiters->length; i > 0; i--) {
        past[tid].woken = true;
        past[tid].several = waiters->length > 1;
        past[tid].edition = k->edition;
        past[tid].last = event + 1;
        past[tid].entry = entry;
        tid = k->task[tid].next;
    }
}

void cover_event_shown(uint32_t tid, struct result result)
{
    if (past[tid].woken && past[tid].entry != entry) {
        MARK(EVENT_LATER_1 + (past[tid].edition - EDITION_SOLE));
        MARK_IF(past[tid].several,
                LATER_ZERO + (result.kind == RESULT_FAULT ? 2
                              : result.number != 0));
    }
    past[tid].woken = false;
}

void cover_happened(uint32_t next)
{
    if (woken.number > 0)
        MARK(next == woken.head ? SEVERAL_TO_HEAD
             : woken.is_in[next] ? SEVERAL_TO_LATER
             : next == woken.interrupted ? SEVERAL_TO_SAME
             : SEVERAL_TO_OTHER);
    memset(&woken, 0, sizeof woken);
    entry++;
}

/* ---- images ---- */

/* Of a table with several waiters of one event. */
static void count_crowd(const struct table *k, uint32_t event)
{
    const struct queue *q = &k->waiters[event];
    bool exited = false, senders = false, ready = false;
    MARK(q->length == 2 ? CROWD_TWO : CROWD_MORE);
    MARK_IF(q->length == TASKS, CROWD_ALL);
    MARK_IF(k->active == 0, CROWD_IDLE);
    MARK_IF(event == 0, CROWD_FIRST);
    MARK_IF(event == EVENTS - 1, CROWD_LAST);
    for (uint32_t tid = q->head; k->task[tid].next != 0;
         tid = k->task[tid].next)
        MARK(tid < k->task[tid].next ? CROWD_TIDS : CROWD_TURNED);
    for (uint32_t tid = 1; tid <= k->used; tid++) {
        exited = exited || k->task[tid].state == STATE_EXITED;
        senders = senders || k->task[tid].senders.length > 1;
    }
    for (uint32_t p = 0; p < PRIORITIES; p++)
        ready = ready || k->ready[p].length > 1;
    MARK_IF(exited, CROWD_EXITED);
    MARK_IF(senders, CROWD_SENDERS);
    MARK_IF(ready, CROWD_READY);
}

void cover_event_taken(const struct table *k)
{
    uint32_t second = k->edition - EDITION_SOLE, events = 0, crowds = 0;
    before = *k;
    for (uint32_t event = 0; event < EVENTS; event++) {
        uint32_t length = k->waiters[event].length;
        events += length > 0;
        crowds += length > 1;
        if (length > 1)
            count_crowd(k, event);
    }
    MARK_IF(events == 0, WAITER_NONE_1 + second);
    MARK_IF(events == 1 && crowds == 0, WAITER_ALONE_1 + second);
    MARK_IF(events > 1 && crowds == 0, WAITER_APART_1 + second);
    MARK_IF(crowds == 0, WAITER_BOTH_1 + second);
    MARK_IF(crowds > 0, WAITER_ONLY);
    MARK_IF(crowds > 1, CROWD_SEVERAL);
}

/* What a step through an image leaves to be stored. */
void cover_event_left(const struct table *k, struct request q,
                      uint32_t verdict)
{
    uint32_t hold = 0, event = (uint32_t)q.arg[0];
    if (verdict != 0)
        return;
    if (q.kind == KIND_AWAIT_EVENT &&
        k->task[before.active].state == STATE_EVENT_BLOCKED)
        MARK(k->waiters[event].length == 1 ? LEFT_FIRST : LEFT_BEHIND);
    if (q.kind != KIND_EVENT || before.waiters[event].length < 2)
        return;
    for (uint32_t tid = 1; tid <= k->used; tid++)
        hold += before.task[tid].state == STATE_EVENT_BLOCKED &&
                before.task[tid].waits_for == event &&
                k->task[tid].state == STATE_READY;
    MARK_IF(hold > 1, q.arg[1] >= 0 ? LEFT_DATA : LEFT_CORRUPT);
    for (uint32_t i = 0; i < EVENTS; i++)
        MARK_IF(k->waiters[i].length > 1, LEFT_STAY);
}
