/* The table in memory and its step. */
#include "kernel.h"

#include <string.h>
#include "cover.h"

static const struct result nothing = { RESULT_NOTHING, 0, 0, false };

static struct result value(uint32_t number)
{
    return (struct result){ RESULT_VALUE, (int32_t)number, 0, false };
}

/* The value of Send, Receive or Reply: it tells of one copy. */
static struct result copied(uint32_t length, uint32_t sender, bool cut)
{
    return (struct result){ RESULT_VALUE, (int32_t)length, sender, cut };
}

static struct result fault(int32_t number)
{
    return (struct result){ RESULT_FAULT, number, 0, false };
}

/* Never offset + length: the sum of two large arguments would overflow. */
bool buffer_is_good(int32_t offset, int32_t length)
{
    return offset >= 0 && offset <= AREA
        && length >= 0 && length <= AREA - offset;
}

static struct buffer buffer_of(int32_t offset, int32_t length)
{
    MARK_IF(offset == AREA, END_BUFFER);
    return (struct buffer){ (uint32_t)offset, (uint32_t)length };
}

static bool event_is_good(int32_t event)
{
    return event >= 0 && event < EVENTS;
}

static bool task_exists(const struct table *k, int32_t tid)
{
    return tid >= 1 && tid <= (int32_t)k->used
        && k->task[tid].state != STATE_EXITED;
}

void table_append(struct table *k, struct queue *q, uint32_t tid)
{
    k->task[tid].next = 0;
    if (q->length == 0)
        q->head = tid;
    else
        k->task[q->tail].next = tid;
    q->tail = tid;
    q->length++;
}

/* Takes the head of a queue that is not empty. */
static uint32_t take_head(struct table *k, struct queue *q)
{
    uint32_t tid = q->head;

    q->head = k->task[tid].next;
    q->length--;
    return tid;
}

static void make_ready(struct table *k, uint32_t tid, struct result result)
{
    struct task *t = &k->task[tid];

    t->state = STATE_READY;
    t->result = result;
    table_append(k, &k->ready[t->priority], tid);
}

struct copy {
    uint32_t count;
    bool cut;
};

/* Copies between the areas of two different tasks. */
static struct copy deliver(uint8_t *areas, uint32_t from, struct buffer source,
                           uint32_t to, struct buffer target)
{
    struct copy c = { source.length, target.length < source.length };

    if (c.cut)
        c.count = target.length;
    memcpy(areas + (to - 1) * AREA + target.offset,
           areas + (from - 1) * AREA + source.offset, c.count);
    return c;
}

/* Each kind's work. It leaves the caller active with its result set, or
   blocked or exited; whoever it wakes or makes joins a ready queue here, so
   ahead of the caller, who joins in schedule(). */

static void create(struct table *k, const struct request *q)
{
    struct task *caller = &k->task[k->active];
    int32_t priority = q->arg[0];

    if (priority < 0 || priority >= PRIORITIES) {
        MARK(k->used == TASKS ? CREATE_PRIORITY_FULL : CREATE_PRIORITY);
        caller->result = fault(-1);
    } else if (k->used == TASKS) {
        MARK(CREATE_FULL);
        caller->result = fault(-2);
    } else {
        uint32_t tid = ++k->used;

        k->task[tid].priority = (uint32_t)priority;
        k->task[tid].parent = k->active;
        k->task[tid].entry = (uint32_t)q->arg[1];
        make_ready(k, tid, nothing);
        MARK(k->used == TASKS ? CREATE_LAST : CREATE_OK);
        caller->result = value(tid);
    }
}

/* Nobody is left to receive what is queued here, so each sender is let go with
   a fault, the first one first. A task whose message was received already
   stands in no queue and stays as it is: anyone may still reply to it. */
static void exit_task(struct table *k)
{
    struct task *caller = &k->task[k->active];

    MARK_EXIT(k);
    caller->state = STATE_EXITED;
    while (caller->senders.length != 0)
        make_ready(k, take_head(k, &caller->senders), fault(-2));
}

static void send_message(struct table *k, uint8_t *areas,
                         const struct request *q)
{
    struct task *caller = &k->task[k->active], *target;
    uint32_t tid = (uint32_t)q->arg[0];
    struct copy c;

    if (!task_exists(k, q->arg[0])) {
        MARK_MISSING(SEND_RANGE, tid, k->used);
        MARK_SENT(k, tid, false);
        MARK_IF(!buffer_is_good(q->arg[1], q->arg[2]), SEND_GONE_MESSAGE);
        MARK_IF(!buffer_is_good(q->arg[3], q->arg[4]), SEND_GONE_REPLY);
        caller->result = fault(-1);
        return;
    }
    if (tid == k->active) {
        MARK(SEND_SELF);
        MARK_IF(!buffer_is_good(q->arg[1], q->arg[2]), SEND_SELF_MESSAGE);
        MARK_IF(!buffer_is_good(q->arg[3], q->arg[4]), SEND_SELF_REPLY);
        caller->result = fault(-2);
        return;
    }
    if (!buffer_is_good(q->arg[1], q->arg[2])
        || !buffer_is_good(q->arg[3], q->arg[4])) {
        MARK_IF(buffer_is_good(q->arg[3], q->arg[4]), SEND_MESSAGE);
        MARK_IF(buffer_is_good(q->arg[1], q->arg[2]), SEND_REPLY);
        caller->result = fault(-3);
        return;
    }
    MARK_SENT(k, tid, true);
    target = &k->task[tid];
    caller->message = buffer_of(q->arg[1], q->arg[2]);
    caller->reply = buffer_of(q->arg[3], q->arg[4]);
    if (target->state == STATE_SEND_BLOCKED) {
        MARK_DELIVERY(SEND_WAITING, caller->message, target->message);
        MARK_RECEIVED(tid, k->active);
        c = deliver(areas, k->active, caller->message, tid, target->message);
        MARK_MESSAGE(CUT_WAITING, tid, k->active, c.cut);
        caller->state = STATE_REPLY_BLOCKED;
        make_ready(k, tid, copied(caller->message.length, k->active, c.cut));
    } else {
        MARK(target->senders.length == 0 ? SEND_QUEUED : SEND_BEHIND);
        caller->state = STATE_RECEIVE_BLOCKED;
        caller->waits_for = tid;
        table_append(k, &target->senders, k->active);
    }
}

static void receive_message(struct table *k, uint8_t *areas,
                            const struct request *q)
{
    struct task *caller = &k->task[k->active], *sender;
    uint32_t tid;
    struct copy c;

    if (!buffer_is_good(q->arg[0], q->arg[1])) {
        MARK(RECEIVE_BUFFER);
        caller->result = fault(-3);
        return;
    }
    caller->message = buffer_of(q->arg[0], q->arg[1]);
    if (caller->senders.length == 0) {
        MARK(RECEIVE_WAITS);
        caller->state = STATE_SEND_BLOCKED;
        return;
    }
    tid = take_head(k, &caller->senders);
    sender = &k->task[tid];
    MARK_DELIVERY(RECEIVE_QUEUE, sender->message, caller->message);
    MARK_RECEIVED(k->active, tid);
    c = deliver(areas, tid, sender->message, k->active, caller->message);
    MARK_MESSAGE(CUT_QUEUE, k->active, tid, c.cut);
    sender->state = STATE_REPLY_BLOCKED;
    caller->result = copied(sender->message.length, tid, c.cut);
}

static void reply_message(struct table *k, uint8_t *areas,
                          const struct request *q)
{
    struct task *caller = &k->task[k->active];
    uint32_t tid = (uint32_t)q->arg[0];
    struct buffer reply;
    struct copy c;

    if (!task_exists(k, q->arg[0])) {
        MARK_MISSING(REPLY_RANGE, tid, k->used);
        MARK_IF(!buffer_is_good(q->arg[1], q->arg[2]), REPLY_GONE_BUFFER);
        caller->result = fault(-1);
        return;
    }
    if (k->task[tid].state != STATE_REPLY_BLOCKED) {
        MARK(tid == k->active ? REPLY_SELF : REPLY_STATE);
        MARK_REPLIED(k, tid, false);
        MARK_IF(!buffer_is_good(q->arg[1], q->arg[2]), REPLY_STATE_BUFFER);
        caller->result = fault(-2);
        return;
    }
    if (!buffer_is_good(q->arg[1], q->arg[2])) {
        MARK(REPLY_BUFFER);
        caller->result = fault(-3);
        return;
    }
    /* The sender learns the full length, the replier the count copied, and
       both that the reply was cut; whether the message had been is not kept. */
    reply = buffer_of(q->arg[1], q->arg[2]);
    c = deliver(areas, k->active, reply, tid, k->task[tid].reply);
    MARK_DELIVERY(REPLY_WHOLE, reply, k->task[tid].reply);
    MARK_IF(k->task[tid].priority == caller->priority, REPLY_EQUAL);
    MARK_REPLIED(k, tid, true);
    MARK_REPLY_CUT(k->active, tid, c.cut);
    make_ready(k, tid, copied(reply.length, 0, c.cut));
    caller->result = copied(c.count, 0, c.cut);
}

static void await_event(struct table *k, const struct request *q)
{
    struct task *caller = &k->task[k->active];
    int32_t event = q->arg[0];

    MARK_AWAIT(k, event);
    if (!event_is_good(event)) {
        caller->result = fault(-1);
    } else if (k->edition == EDITION_SOLE && k->waiters[event].length != 0) {
        caller->result = fault(-3);
    } else {
        caller->state = STATE_EVENT_BLOCKED;
        caller->waits_for = (uint32_t)event;
        table_append(k, &k->waiters[event], k->active);
    }
}

/* Which edition holds does not matter any more: it said how many may wait. The
   interrupted task asked for nothing and so gets no result. */
static void event_happens(struct table *k, const struct request *q)
{
    struct queue *waiters = &k->waiters[q->arg[0]];
    int32_t data = q->arg[1];
    struct result result = data >= 0 ? value((uint32_t)data) : fault(-2);

    MARK_HAPPENS(k, q);
    while (waiters->length != 0)
        make_ready(k, take_head(k, waiters), result);
}

static void serve(struct table *k, uint8_t *areas, const struct request *q)
{
    struct task *caller = &k->task[k->active];

    MARK_IF(q->kind == KIND_MY_TID, TID);
    MARK_IF(q->kind == KIND_MY_PARENT_TID, COVER_PARENT(k));
    MARK_IF(q->kind == KIND_YIELD, YIELD_ALONE + COVER_COMPANY(k));
    switch (q->kind) {
    case KIND_CREATE:        create(k, q); break;
    case KIND_MY_TID:        caller->result = value(k->active); break;
    case KIND_MY_PARENT_TID: caller->result = value(caller->parent); break;
    case KIND_YIELD:         caller->result = value(0); break;
    case KIND_EXIT:          exit_task(k); break;
    case KIND_SEND:          send_message(k, areas, q); break;
    case KIND_RECEIVE:       receive_message(k, areas, q); break;
    case KIND_REPLY:         reply_message(k, areas, q); break;
    case KIND_AWAIT_EVENT:   await_event(k, q); break;
    case KIND_EVENT:         event_happens(k, q); break;
    }
}

/* The end of every kernel entry: the caller joins its queue if it still can
   run, then the first task of the best queue becomes active. */
static struct answer schedule(struct table *k)
{
    struct task *caller = &k->task[k->active];
    struct answer a = { 0, 0, nothing };

    if (k->active != 0 && caller->state == STATE_ACTIVE)
        make_ready(k, k->active, caller->result);
    k->active = 0;
    for (uint32_t p = 0; p < PRIORITIES; p++) {
        if (k->ready[p].length != 0) {
            struct task *t;

            a.next = k->active = take_head(k, &k->ready[p]);
            t = &k->task[a.next];
            t->state = STATE_ACTIVE;
            a.result = t->result;
            MARK_IF(a.result.kind == RESULT_NOTHING, SHOW_NOTHING);
            MARK_IF(a.result.kind == RESULT_VALUE, SHOW_VALUE + !!a.result.from);
            MARK_IF(a.result.kind == RESULT_FAULT, SHOW_FAULT);
            MARK_SHOWN(a.next);
            MARK_EVENT_SHOWN(a.next, a.result);
            MARK_CUT_SHOWN(a.next, a.result);
            t->result = nothing; /* shown once only */
            break;
        }
    }
    MARK_IF(a.next == 0, SHOW_IDLE);
    MARK_HAPPENED(a.next);
    MARK_EXITED(caller->state == STATE_EXITED, a.next);
    return a;
}

static uint32_t refusal_of(const struct table *k, const struct request *q)
{
    if (k->used == 0)
        return REFUSED_TABLE;
    if (q->kind < KIND_CREATE || q->kind > KIND_OWN_WRITE)
        return REFUSED_KIND;
    if (k->active == 0 && q->kind != KIND_EVENT)
        return REFUSED_NO_ACTIVE;
    if (q->kind == KIND_EVENT && !event_is_good(q->arg[0]))
        return REFUSED_EVENT;
    if (q->kind == KIND_OWN_WRITE
        && (q->arg[0] < 0 || q->arg[0] >= AREA
            || q->arg[1] < 0 || q->arg[1] > UINT8_MAX))
        return REFUSED_WRITE;
    return 0;
}

uint32_t table_start(struct table *k, uint32_t edition, uint32_t priority,
                     uint32_t entry)
{
    *k = (struct table){ 0 };
    MARK_FORGET();
    if (!edition_is_good(edition))
        return REFUSED_EDITION;
    if (priority >= PRIORITIES)
        return REFUSED_PRIORITY;
    k->edition = edition;
    k->used = 1;
    k->active = 1;
    k->task[1].state = STATE_ACTIVE;
    k->task[1].priority = priority;
    k->task[1].entry = entry;
    return 0;
}

struct answer table_step(struct table *k, uint8_t *areas,
                         const struct request *q)
{
    struct answer standing = { refusal_of(k, q), k->active, nothing };

    MARK_REFUSED(standing.verdict, k->active, q);
    if (standing.verdict != 0)
        return standing;
    if (q->kind == KIND_OWN_WRITE) {
        MARK(WRITE_OWN);
        /* The task's own store: no kernel entry, so no scheduling. */
        areas[(k->active - 1) * AREA + (uint32_t)q->arg[0]]
            = (uint8_t)q->arg[1];
        return standing;
    }
    serve(k, areas, q);
    return schedule(k);
}
