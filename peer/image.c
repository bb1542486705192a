/* The stored records and the byte entry. */
#include "kernel.h"
#include "stored.h"

#include <string.h>
#include "cover.h"

static bool buffer_read(struct buffer *b, const uint8_t *at, bool in_use)
{
    b->offset = get16(at);
    b->length = get16(at + 2);
    MARK_ASK_MORE(in_use ? 0 : b->offset != 0 ? 1 : 2);
    if (!in_use)
        return b->offset == 0 && b->length == 0;
    return buffer_is_good((int32_t)b->offset, (int32_t)b->length);
}

static bool result_read(struct task *t, const uint8_t *slot, uint32_t used)
{
    struct result r = { slot[AT_RESULT], get_signed32(slot + AT_NUMBER),
                        slot[AT_FROM], slot[AT_CUT] == 1 };

    t->result = r;
    MARK_ASK(RULE_RESULT_KIND);
    switch (r.kind) {
    case RESULT_NOTHING:
        MARK_ASK(r.from != 0 ? RULE_EMPTY_FROM : RULE_EMPTY_VALUE);
        return r.number == 0 && r.from == 0;
    case RESULT_VALUE:
        MARK_ASK(r.number < 0 ? RULE_VALUE : RULE_VALUE_FROM);
        MARK_ASK_IF(t->state != STATE_READY, RULE_RESULT_HELD);
        return t->state == STATE_READY && r.number >= 0 && r.from <= used;
    case RESULT_FAULT:
        MARK_ASK(t->state != STATE_READY ? RULE_RESULT_HELD : RULE_FAULT);
        return t->state == STATE_READY && r.number >= -3 && r.number <= -1
            MARK_AND_ASK(RULE_FAULT_FROM)
            && r.from == 0;
    default:
        return false;
    }
}

/* Only a value tells of a copy. */
static bool cut_is_good(uint8_t cut, uint32_t kind)
{
    MARK_ASK_CUT(cut, kind);
    return cut == 0 || (cut == 1 && kind == RESULT_VALUE);
}

static bool parent_is_good(uint32_t parent, uint32_t tid)
{
    MARK_ASK(tid == 1 ? RULE_PARENT_FIRST : RULE_PARENT_LATE);
    MARK_ASK_IF(tid != 1 && parent == 0, RULE_PARENT_NONE);
    return tid == 1 ? parent == 0 : parent >= 1 && parent < tid;
}

static bool waits_for_is_good(const struct task *t, uint32_t tid,
                              uint32_t used)
{
    switch (t->state) {
    case STATE_RECEIVE_BLOCKED:
        MARK_ASK(t->waits_for < 1 ? RULE_TARGET_NONE : RULE_TARGET_UNUSED);
        return t->waits_for >= 1 && t->waits_for <= used
            MARK_AND_ASK(RULE_TARGET_SELF)
            && t->waits_for != tid;
    case STATE_EVENT_BLOCKED:
        MARK_ASK(RULE_EVENT);
        return t->waits_for < EVENTS;
    default:
        MARK_ASK(RULE_NAME_UNUSED);
        return t->waits_for == 0;
    }
}

/* Everything about a used slot that its own bytes tell. Its place has a
   meaning only beside the others and is left to queues_read(). */
static bool task_read(struct task *t, uint32_t tid, const uint8_t *slot,
                      uint32_t used, uint32_t edition)
{
    MARK_RECORD(STATE_UNUSED);
    MARK_ASK(RULE_STATE);
    if (slot[AT_STATE] > STATE_EXITED)
        return false;
    t->state = (enum state)slot[AT_STATE];
    t->priority = slot[AT_PRIORITY];
    t->parent = slot[AT_PARENT];
    t->waits_for = slot[AT_WAITS_FOR];
    t->entry = get32(slot + AT_ENTRY); /* any number, in every state */
    MARK_RECORD(t->state);
    MARK_ASK(RULE_PRIORITY);
    return t->priority < PRIORITIES
        && parent_is_good(t->parent, tid)
        && waits_for_is_good(t, tid, used)
        MARK_AND_ASK(RULE_PLACE_UNUSED)
        && (uses_place(t->state, edition) || slot[AT_PLACE] == 0)
        MARK_AND_ASK(RULE_MESSAGE_BAD)
        && buffer_read(&t->message, slot + AT_MESSAGE, uses_message(t->state))
        MARK_AND_ASK(RULE_REPLY_BAD)
        && buffer_read(&t->reply, slot + AT_REPLY, uses_reply(t->state))
        && result_read(t, slot, used)
        && cut_is_good(slot[AT_CUT], t->result.kind);
}

/* The number of used slots; 0, which no good table has, where they are not a
   first run or an unused one is not all zero. */
static uint32_t used_read(const uint8_t *image)
{
    uint32_t used = 0;

    while (used < TASKS && image[used * SLOT_BYTES + AT_STATE] != STATE_UNUSED)
        used++;
    for (uint32_t i = used * SLOT_BYTES; i < IMAGE_BYTES; i++)
        MARK_EACH_BYTE(image[i], i % SLOT_BYTES == AT_STATE)
        if (image[i] != 0)
            return 0;
    MARK_RECORD(STATE_UNUSED);
    MARK_ASK(RULE_NO_TASK);
    return used;
}

/* The tasks one by one; only one of them may be active. */
static bool tasks_read(struct table *k, const uint8_t *image)
{
    for (uint32_t tid = 1; tid <= k->used; tid++) {
        struct task *t = &k->task[tid];

        if (!task_read(t, tid, image + (tid - 1) * SLOT_BYTES, k->used,
                       k->edition))
            return false;
        if (t->state == STATE_ACTIVE) {
            MARK_ASK(RULE_ACTIVE_TWICE);
            if (k->active != 0)
                return false;
            k->active = tid;
        }
    }
    return true;
}

/* The one queue in which a task of such a state stands. */
static struct queue *queue_of(struct table *k, const struct task *t)
{
    switch (t->state) {
    case STATE_READY:
        return &k->ready[t->priority];
    case STATE_RECEIVE_BLOCKED:
        return &k->task[t->waits_for].senders;
    default:
        return &k->waiters[t->waits_for];
    }
}

/* Builds the queues. The tasks are first sorted by their places, so that each
   finds its queue just as long as its place says; a longer queue means the
   place is taken twice, a shorter one that there is a gap. Where only one may
   wait for an event all places there are 0, so that a second one is refused as
   the place is taken. */
static bool queues_read(struct table *k, const uint8_t *image)
{
    uint32_t first[TASKS] = { 0 }, other[TASKS + 1];

    for (uint32_t tid = 1; tid <= k->used; tid++) {
        uint32_t place = image[(tid - 1) * SLOT_BYTES + AT_PLACE];

        if (!is_queued(k->task[tid].state))
            continue;
        MARK_RECORD(k->task[tid].state);
        MARK_ASK(RULE_PLACE_RANGE);
        if (place >= TASKS)
            return false; /* no queue is as long */
        other[tid] = first[place];
        first[place] = tid;
    }
    for (uint32_t place = 0; place < TASKS; place++) {
        for (uint32_t tid = first[place]; tid != 0; tid = other[tid]) {
            struct task *t = &k->task[tid];
            struct queue *q = queue_of(k, t);

            MARK_RECORD(t->state);
            MARK_ASK(q->length > place ? RULE_PLACE_TWICE : RULE_PLACE_GAP);
            MARK_ASK_IF(!uses_place(t->state, k->edition), RULE_EVENT_TWICE);
            if (q->length != place)
                return false;
            table_append(k, q, tid);
        }
    }
    return true;
}

/* The rules that tie states to whole queues. */
static bool queues_fit(const struct table *k)
{
    for (uint32_t tid = 1; tid <= k->used; tid++) {
        const struct task *t = &k->task[tid];

        MARK_RECORD(t->state);
        MARK_ASK(t->state == STATE_READY ? RULE_NONE_ACTIVE : RULE_WAITING_SENDER);
        if (t->state == STATE_SEND_BLOCKED && t->senders.length != 0)
            return false;
        if (t->state == STATE_READY && k->active == 0)
            return false;
    }
    return true;
}

/* Nobody waits to be received by a task that has exited. That a target is a
   used slot was asked before, in waits_for_is_good(), when not every state was
   known yet. */
static bool targets_exist(const struct table *k)
{
    MARK_TARGETS(k);
    for (uint32_t tid = 1; tid <= k->used; tid++) {
        const struct task *t = &k->task[tid];

        if (t->state != STATE_RECEIVE_BLOCKED)
            continue;
        MARK_RECORD(t->state);
        MARK_ASK(t->waits_for < tid ? RULE_EXITED_BEFORE : RULE_EXITED_BEHIND);
        if (k->task[t->waits_for].state == STATE_EXITED)
            return false;
    }
    return true;
}

bool table_read(struct table *k, uint32_t edition, const uint8_t *image)
{
    MARK_FORGET();
    *k = (struct table){ 0 };
    k->edition = edition;
    k->used = used_read(image);
    if (k->used > 0 && tasks_read(k, image) && queues_read(k, image)
        && queues_fit(k) && targets_exist(k))
        return true;
    *k = (struct table){ 0 };
    return false;
}

/* All but the place, over a slot of zeros. */
static void task_write(const struct task *t, uint8_t *slot)
{
    slot[AT_STATE] = (uint8_t)t->state;
    slot[AT_PRIORITY] = (uint8_t)t->priority;
    slot[AT_PARENT] = (uint8_t)t->parent;
    if (uses_waits_for(t->state))
        slot[AT_WAITS_FOR] = (uint8_t)t->waits_for;
    if (uses_message(t->state)) {
        put16(slot + AT_MESSAGE, t->message.offset);
        put16(slot + AT_MESSAGE + 2, t->message.length);
    }
    if (uses_reply(t->state)) {
        put16(slot + AT_REPLY, t->reply.offset);
        put16(slot + AT_REPLY + 2, t->reply.length);
    }
    slot[AT_RESULT] = (uint8_t)t->result.kind;
    slot[AT_FROM] = (uint8_t)t->result.from;
    slot[AT_CUT] = t->result.cut;
    put32(slot + AT_NUMBER, (uint32_t)t->result.number);
    put32(slot + AT_ENTRY, t->entry);
}

static void places_write(const struct table *k, const struct queue *q,
                         uint8_t *image)
{
    uint32_t tid = q->head;

    for (uint32_t place = 0; place < q->length; place++) {
        image[(tid - 1) * SLOT_BYTES + AT_PLACE] = (uint8_t)place;
        tid = k->task[tid].next;
    }
}

void table_write(struct table *k, uint8_t *image)
{
    MARK_IF(k->used == 0, WRITE_UNUSED);
    if (k->used == 0)
        return; /* the all-unused table is not a good one and has no image */
    memset(image, 0, IMAGE_BYTES);
    for (uint32_t tid = 1; tid <= k->used; tid++)
        task_write(&k->task[tid], image + (tid - 1) * SLOT_BYTES);
    for (uint32_t p = 0; p < PRIORITIES; p++)
        places_write(k, &k->ready[p], image);
    for (uint32_t tid = 1; tid <= k->used; tid++)
        places_write(k, &k->task[tid].senders, image);
    for (uint32_t event = 0; event < EVENTS; event++)
        places_write(k, &k->waiters[event], image);
}

struct request request_read(const uint8_t *record)
{
    struct request q;

    q.kind = get_signed32(record);
    for (uint32_t i = 0; i < 5; i++)
        q.arg[i] = get_signed32(record + 4 + 4 * i);
    return q;
}

void request_write(const struct request *q, uint8_t *record)
{
    put32(record, (uint32_t)q->kind);
    for (uint32_t i = 0; i < 5; i++)
        put32(record + 4 + 4 * i, (uint32_t)q->arg[i]);
}

static void answer_write(const struct answer *a, uint8_t *bytes)
{
    put32(bytes, a->verdict);
    put32(bytes + 4, a->next);
    put32(bytes + 8, a->result.kind);
    put32(bytes + 12, (uint32_t)a->result.number);
    put32(bytes + 16, a->result.from);
    put32(bytes + 20, a->result.cut);
}

uint32_t peer_step(uint32_t edition, uint8_t *image, uint64_t image_len,
                   uint8_t *areas, uint64_t areas_len,
                   const uint8_t *record, uint64_t record_len,
                   uint8_t *answer, uint64_t answer_len)
{
    struct answer a = { 0, 0, { RESULT_NOTHING, 0, 0, false } };
    struct table k;

    MARK_GIVEN(edition, answer_len, record_len, image, image_len, areas_len);
    MARK_IF(answer_len != ANSWER_BYTES, REFUSAL_10);
    MARK_IF(answer_len != ANSWER_BYTES && record_len != RECORD_BYTES, ORDER_10_5);
    MARK_ANSWER(answer_len, record_len, image, image_len, areas_len);
    if (answer_len != ANSWER_BYTES)
        return REFUSED_ANSWER;
    if (!edition_is_good(edition)) {
        MARK_NO_EDITION(edition, record, record_len, image, image_len, areas_len);
        a.verdict = REFUSED_EDITION;
    } else if (record_len != RECORD_BYTES) {
        MARK(REFUSAL_5);
        MARK_IF(image_len == OLD_IMAGE_BYTES, IMAGE_OLD_5);
        MARK_IF(image_len != IMAGE_BYTES, ORDER_5_7);
        a.verdict = REFUSED_RECORD;
    } else if (image_len != IMAGE_BYTES) {
        MARK(REFUSAL_7);
        MARK_IMAGE(image, image_len, areas_len);
        MARK_IF(areas_len != AREAS_BYTES, ORDER_7_1);
        a.verdict = REFUSED_IMAGE;
    } else if (areas_len != AREAS_BYTES) {
        MARK(REFUSAL_1);
        MARK_IF(!table_read(&k, edition, image), ORDER_1_2);
        MARK_IF(!table_read(&k, edition, image) && COVER_CLOSED, CLOSED_1);
        MARK_IF(!table_read(&k, edition, image) && COVER_CUT, CUT_BAD_1);
        MARK_IF(!table_read(&k, edition, image) && COVER_PLACE, PLACE_BAD_1_1 + edition - EDITION_SOLE);
        MARK_IF(cover_entry_only(image), UNUSED_1);
        a.verdict = REFUSED_AREAS;
    } else if (!table_read(&k, edition, image)) {
        MARK(REFUSAL_2);
        MARK_RULE();
        MARK_EVENT_BAD(image, request_read(record));
        MARK_CLOSED(request_read(record));
        MARK_CUT_BAD(image, request_read(record));
        MARK_IF(get32(record) - 1 >= KIND_OWN_WRITE, ORDER_2_3);
        MARK_ENTRY_BAD(image, request_read(record));
        a.verdict = REFUSED_TABLE;
    } else {
        struct request q = request_read(record);

        MARK_TAKEN(&k);
        a = table_step(&k, areas, &q);
        MARK_CUT_LEFT(&k, a.verdict);
        MARK_ENTRY_LEFT(&k, q, a.verdict);
        MARK_EVENT_LEFT(&k, q, a.verdict);
        if (a.verdict == 0)
            table_write(&k, image);
    }
    MARK_STEPPED(edition, a.verdict);
    answer_write(&a, answer);
    return a.verdict;
}

uint32_t peer_start(uint32_t edition, uint32_t priority, uint32_t entry,
                    uint8_t *image, uint64_t image_len)
{
    struct table k;
    uint32_t refusal = table_start(&k, edition, priority, entry);

    MARK_STARTED(edition, priority, entry, image_len);
    if (refusal != 0)
        return refusal;
    if (image_len != IMAGE_BYTES)
        return REFUSED_IMAGE;
    table_write(&k, image);
    return 0;
}
