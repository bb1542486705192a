#include "plain.h"

#include <stddef.h>
#include <string.h>

enum { UNUSED, ACTIVE, READY, SEND_BLOCKED, RECEIVE_BLOCKED, REPLY_BLOCKED, EVENT_BLOCKED, EXITED };
enum { CREATE = 1, MY_TID, MY_PARENT_TID, YIELD, EXIT, SEND, RECEIVE, REPLY, AWAIT_EVENT, EVENT, OWN_WRITE };
enum { NOTHING, VALUE, FAULT };

struct result {
    uint8_t kind, from, cut;
    int32_t number;
};

struct buffer {
    uint16_t offset, length;
};

struct copied {
    uint16_t count;
    uint8_t cut;
};

struct queue {
    struct task *head, *tail;
};

struct task {
    struct task *next;
    struct queue senders;
    struct buffer message, reply;
    struct result result;
    uint32_t entry;
    uint8_t state, tid, priority, parent;
    uint8_t awaited; /* the target or the event */
};

static struct task tasks[PLAIN_TASKS], *active, *waiter[PLAIN_EVENTS];
static struct queue ready[PLAIN_PRIORITIES];
static uint32_t filled; /* a bit for each ready queue that is not empty */
static uint8_t used;

static void join(struct queue *q, struct task *t)
{
    t->next = NULL;
    if (q->head)
        q->tail->next = t;
    else
        q->head = t;
    q->tail = t;
}

static struct task *leave(struct queue *q)
{
    struct task *t = q->head;
    q->head = t->next;
    return t;
}

static void wake_with(struct task *t, struct result told)
{
    t->state = READY;
    t->result = told;
    join(&ready[t->priority], t);
    filled |= UINT32_C(1) << t->priority;
}

/* With what no delivery gave: from nobody, and not cut. */
static void wake(struct task *t, uint8_t kind, int32_t number)
{
    wake_with(t, (struct result){kind, 0, 0, number});
}

static struct plain_answer dispatch(void)
{
    active = NULL;
    if (!filled)
        return (struct plain_answer){0, 0, NOTHING, 0, 0, 0};
    unsigned p = (unsigned)__builtin_ctz(filled);
    struct task *t = leave(&ready[p]);
    if (!ready[p].head)
        filled &= filled - 1;
    active = t;
    t->state = ACTIVE;
    return (struct plain_answer){0, t->tid, t->result.kind, t->result.number, t->result.from, t->result.cut};
}

static int good(int32_t offset, int32_t length)
{
    return offset >= 0 && length >= 0 && offset <= PLAIN_AREA && length <= PLAIN_AREA - offset;
}

static struct buffer buffer(int32_t offset, int32_t length)
{
    return (struct buffer){(uint16_t)offset, (uint16_t)length};
}

static struct copied deliver(uint8_t *areas, uint8_t from, struct buffer source, uint8_t to, struct buffer room)
{
    uint8_t cut = room.length < source.length;
    uint16_t count = cut ? room.length : source.length;
    memcpy(areas + (to - 1) * PLAIN_AREA + room.offset, areas + (from - 1) * PLAIN_AREA + source.offset, count);
    return (struct copied){count, cut};
}

static struct task *existing(int32_t tid)
{
    return tid >= 1 && tid <= used && tasks[tid - 1].state != EXITED ? &tasks[tid - 1] : NULL;
}

static void make(uint8_t priority, uint32_t entry, uint8_t parent)
{
    struct task *t = &tasks[used++];
    t->tid = used;
    t->priority = priority;
    t->entry = entry;
    t->parent = parent;
    wake(t, NOTHING, 0);
}

void plain_start(uint8_t priority, uint32_t entry)
{
    memset(tasks, 0, sizeof tasks);
    memset(ready, 0, sizeof ready);
    memset(waiter, 0, sizeof waiter);
    used = 0, filled = 0;
    make(priority, entry, 0);
    dispatch();
}

/* The fault, or 0 where the caller waits now. */
static int32_t send(struct task *me, const int32_t *arg, uint8_t *areas)
{
    struct task *to = existing(arg[0]);
    if (!to)
        return -1;
    if (to == me)
        return -2;
    if (!good(arg[1], arg[2]) || !good(arg[3], arg[4]))
        return -3;
    me->message = buffer(arg[1], arg[2]);
    me->reply = buffer(arg[3], arg[4]);
    if (to->state == SEND_BLOCKED) {
        struct copied copied = deliver(areas, me->tid, me->message, to->tid, to->message);
        me->state = REPLY_BLOCKED;
        wake_with(to, (struct result){VALUE, me->tid, copied.cut, me->message.length});
    } else {
        me->state = RECEIVE_BLOCKED;
        me->awaited = to->tid;
        join(&to->senders, me);
    }
    return 0;
}

static void receive(struct task *me, const int32_t *arg, uint8_t *areas)
{
    if (!good(arg[0], arg[1])) {
        wake(me, FAULT, -3);
        return;
    }
    struct buffer room = buffer(arg[0], arg[1]);
    if (!me->senders.head) {
        me->message = room;
        me->state = SEND_BLOCKED;
        return;
    }
    struct task *sender = leave(&me->senders);
    struct copied copied = deliver(areas, sender->tid, sender->message, me->tid, room);
    sender->state = REPLY_BLOCKED;
    wake_with(me, (struct result){VALUE, sender->tid, copied.cut, sender->message.length});
}

static void reply(struct task *me, const int32_t *arg, uint8_t *areas)
{
    struct task *sender = existing(arg[0]);
    int32_t fault = !sender ? -1 : sender->state != REPLY_BLOCKED ? -2 : !good(arg[1], arg[2]) ? -3 : 0;
    if (fault) {
        wake(me, FAULT, fault);
        return;
    }
    struct copied copied = deliver(areas, me->tid, buffer(arg[1], arg[2]), sender->tid, sender->reply);
    wake_with(sender, (struct result){VALUE, 0, copied.cut, arg[2]});
    wake_with(me, (struct result){VALUE, 0, copied.cut, copied.count});
}

static void create(struct task *me, int32_t priority, int32_t entry)
{
    if (priority < 0 || priority >= PLAIN_PRIORITIES) {
        wake(me, FAULT, -1);
    } else if (used == PLAIN_TASKS) {
        wake(me, FAULT, -2);
    } else {
        make((uint8_t)priority, (uint32_t)entry, me->tid);
        wake(me, VALUE, used);
    }
}

static void leaves(struct task *me)
{
    while (me->senders.head)
        wake(leave(&me->senders), FAULT, -2);
    me->state = EXITED;
}

static void await(struct task *me, int32_t event)
{
    if (event < 0 || event >= PLAIN_EVENTS) {
        wake(me, FAULT, -1);
    } else if (waiter[event]) {
        wake(me, FAULT, -3);
    } else {
        waiter[event] = me;
        me->awaited = (uint8_t)event;
        me->state = EVENT_BLOCKED;
    }
}

static void happen(struct task *me, int32_t event, int32_t data)
{
    struct task *t = waiter[event];
    if (t) {
        waiter[event] = NULL;
        wake(t, data >= 0 ? VALUE : FAULT, data >= 0 ? data : -2);
    }
    if (me)
        wake(me, NOTHING, 0);
}

struct plain_answer plain_step(const struct plain_request *q, uint8_t *areas)
{
    struct task *me = active;
    int32_t fault;
    switch (q->kind) {
    case CREATE: create(me, q->arg[0], q->arg[1]); break;
    case MY_TID: wake(me, VALUE, me->tid); break;
    case MY_PARENT_TID: wake(me, VALUE, me->parent); break;
    case YIELD: wake(me, VALUE, 0); break;
    case EXIT: leaves(me); break;
    case SEND:
        fault = send(me, q->arg, areas);
        if (fault)
            wake(me, FAULT, fault);
        break;
    case RECEIVE: receive(me, q->arg, areas); break;
    case REPLY: reply(me, q->arg, areas); break;
    case AWAIT_EVENT: await(me, q->arg[0]); break;
    case EVENT: happen(me, q->arg[0], q->arg[1]); break;
    default:
        areas[(me->tid - 1) * PLAIN_AREA + q->arg[0]] = (uint8_t)q->arg[1];
        return (struct plain_answer){0, me->tid, NOTHING, 0, 0, 0};
    }
    return dispatch();
}

/* ---- stored records: only to compare, and not counted */

static uint8_t place(const struct queue *q, const struct task *t)
{
    uint8_t at = 0;
    for (const struct task *u = q->head; u != t; u = u->next)
        at++;
    return at;
}

static void put_buffer(uint8_t *b, struct buffer x)
{
    b[0] = (uint8_t)x.offset, b[1] = (uint8_t)(x.offset >> 8);
    b[2] = (uint8_t)x.length, b[3] = (uint8_t)(x.length >> 8);
}

static void put_word(uint8_t *b, uint32_t x)
{
    for (int i = 0; i < 4; i++)
        b[i] = (uint8_t)(x >> 8 * i);
}

void plain_image(uint8_t *image)
{
    memset(image, 0, PLAIN_IMAGE);
    for (uint8_t s = 0; s < used; s++) {
        const struct task *t = &tasks[s];
        uint8_t *b = image + PLAIN_RECORD * s;
        b[0] = t->state, b[1] = t->priority, b[2] = t->parent;
        put_word(b + 20, t->entry);
        if (t->state == RECEIVE_BLOCKED || t->state == EVENT_BLOCKED)
            b[4] = t->awaited;
        if (t->state == RECEIVE_BLOCKED)
            b[3] = place(&tasks[t->awaited - 1].senders, t);
        if (t->state == SEND_BLOCKED || t->state == RECEIVE_BLOCKED)
            put_buffer(b + 6, t->message);
        if (t->state == RECEIVE_BLOCKED || t->state == REPLY_BLOCKED)
            put_buffer(b + 10, t->reply);
        if (t->state == READY) {
            b[3] = place(&ready[t->priority], t);
            b[5] = t->result.kind, b[14] = t->result.from, b[15] = t->result.cut;
            put_word(b + 16, (uint32_t)t->result.number);
        }
    }
}
