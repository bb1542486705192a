/* A fixed list about waiters of events: streams, cases and conversions. */
#include <string.h>

#include "images.h"

/* ---- streams ---- */

static const struct table *const k = &followed;

static const int32_t data[] = {0, 7, -5, INT32_MAX, INT32_MIN, 1, -1, 65536};
static const uint32_t events[] = {5, 0, EVENTS - 1, 5, 31, 32};

/* All equal, few, in the order of tids or against it, or crosswise. */
static uint32_t priority_of(uint32_t pattern, uint32_t i)
{
    return pattern == 0 ? FIRST_PRIORITY : pattern == 1 ? 15 + i % 3
           : pattern == 2 ? i : pattern == 3 ? PRIORITIES - 1 - i
           : i * 11 % PRIORITIES;
}

/* Who runs waits, until so many do, or nobody is left. Where the event has its
 * one waiter they are told so, and wait for another event. Some send to who
 * waits first, and are received when it is back. */
static void gather(uint32_t event, uint32_t number, bool senders)
{
    uint32_t others = 0;
    for (int tries = 0; tries < 200 && k->active; tries++) {
        const struct queue *q = &k->waiters[event];
        const struct task *t = &k->task[k->active];
        if (t->senders.length > 0) {
            uint32_t sender = t->senders.head;
            step(KIND_RECEIVE, 0, 4, 0, 0, 0);
            step(KIND_REPLY, sender, 0, 2, 0, 0);
        } else if (q->length + others >= number) {
            return;
        } else if (senders && q->length > 1 && k->active % 3 == 0) {
            step(KIND_SEND, q->head, 3, 4, 9, 9);
        } else if (q->length > 0 && k->edition == EDITION_SOLE) {
            step(KIND_AWAIT_EVENT, event, 0, 0, 0, 0);
            if (k->active)
                step(KIND_AWAIT_EVENT, (event + k->active) % EVENTS, 0, 0, 0,
                     0);
            others++;
        } else {
            step(KIND_AWAIT_EVENT, event, 1, 2, 3, 4);
        }
    }
}

/* Those who wait for other events are back before the next round. */
static void wake_all(void)
{
    for (uint32_t event = 0; event < EVENTS; event++)
        if (k->waiters[event].length > 0)
            step(KIND_EVENT, event, event, 0, 0, 0);
}

int events_run(uint32_t pattern)
{
    static const uint32_t number[] = {TASKS, TASKS - 1, 2, 17, TASKS, 3, 1,
                                      TASKS - 1, 30, 5, TASKS};
    stream_start(EDITION_SOLE + pattern % 2);
    while (k->used < TASKS)
        step(KIND_CREATE, priority_of(pattern / 2, k->used), k->used, 0, 0, 0);
    for (uint32_t round = 0; round < 4 * COUNT(number); round++) {
        uint32_t event = events[round % COUNT(events)];
        uint32_t size = number[round % COUNT(number)];
        gather(event, size, round % 4 == 3);
        step(KIND_EVENT, (event + 1) % EVENTS, 3, 0, 0, 0);
        if (round % 5 == 2 && k->active)
            step(KIND_YIELD, 0, 0, 0, 0, 0);
        step(KIND_EVENT, event, (uint32_t)data[round % COUNT(data)], 9, 9, 9);
        step(KIND_MY_TID, 0, 0, 0, 0, 0);
        if (round % 2)
            step(KIND_YIELD, 0, 0, 0, 0, 0);
        step(KIND_EVENT, event, 9, 0, 0, 0); /* nobody is left there */
        if (size == TASKS || round % 7 == 0)
            wake_all();
    }
    return 0;
}

/* ---- images ---- */

static uint8_t image[IMAGE_BYTES];

static void wait_at(uint32_t i, uint32_t event, uint32_t place)
{
    uint8_t *b = slot(image, i);
    remake(b, STATE_EVENT_BLOCKED);
    b[AT_PLACE] = (uint8_t)place;
    b[AT_WAITS_FOR] = (uint8_t)event;
}

static void send_to(uint32_t i, uint32_t tid, uint32_t place)
{
    uint8_t *b = slot(image, i);
    remake(b, STATE_RECEIVE_BLOCKED);
    b[AT_PLACE] = (uint8_t)place;
    b[AT_WAITS_FOR] = (uint8_t)tid;
    put2(b + AT_MESSAGE, i);
    put2(b + AT_MESSAGE + 2, i % 7);
    put2(b + AT_REPLY + 2, 5);
}

/* Each place once, in an order that is not always that of the slots. */
static uint32_t place_of(uint32_t nth, uint32_t n, uint32_t order)
{
    return order == 0 ? nth : order == 1 ? n - 1 - nth : (nth + n / 2) % n;
}

/* So many wait for one event, from some slot on; the slot before the first of
 * them is active, if it is to be and there is one. Of the others some are
 * ready, some wait for another event and some send to the first waiter. */
static void crowd(uint32_t event, uint32_t n, uint32_t order, uint32_t spread,
                  bool idle)
{
    uint32_t from = n % TASKS, last = (from + TASKS - 1) % TASKS;
    uint8_t ready[PRIORITIES] = {0}, senders = 0, elsewhere = 0;
    image_tasks(image, TASKS);
    for (uint32_t nth = 0; nth < TASKS; nth++) {
        uint32_t i = (from + nth) % TASKS;
        uint8_t *b = slot(image, i);
        b[AT_PRIORITY] = (uint8_t)priority_of(spread, i);
        if (nth < n)
            wait_at(i, event, place_of(nth, n, order));
        else if (i == last && !idle)
            remake(b, STATE_ACTIVE);
        else if (nth % 4 == 0)
            wait_at(i, (event + 1) % EVENTS, elsewhere++);
        else if (nth % 4 == 1)
            send_to(i, from + 1, senders++);
        else if (nth % 4 == 2 && !idle) {
            remake(b, STATE_READY);
            b[AT_PLACE] = ready[b[AT_PRIORITY]]++;
        }
    }
}

/* ---- cases ---- */

static void put(int32_t kind, int32_t a, int32_t b)
{
    put_case(image, AREAS_BYTES, &(struct request){kind, {a, b, -1, 7, 9}});
}

/* The event happens, with data of each sort; one more waits; it happens to
 * another; and something else is asked. */
static void crowds(void)
{
    static const uint32_t size[] = {1, 2, 3, 16, 30, 31, 32};
    uint32_t turn = 0;
    for (unsigned n = 0; n < COUNT(size); n++)
        for (uint32_t order = 0; order < 3; order++)
            for (uint32_t spread = 0; spread < 5; spread++, turn++) {
                uint32_t event = events[turn % COUNT(events)];
                bool idle = size[n] == TASKS || turn % 3 == 0;
                crowd(event, size[n], order, spread, idle);
                put(KIND_EVENT, (int32_t)event, data[turn % COUNT(data)]);
                put(KIND_EVENT, (int32_t)event, data[(turn + 3) % COUNT(data)]);
                put(KIND_EVENT, (int32_t)(event + 1) % EVENTS, 4);
                put(KIND_AWAIT_EVENT, (int32_t)event, 0);
                put(turn % 11 + 1, (int32_t)event, 2);
            }
}

/* Any two slots wait for one event, at these places, good and wrong; or for two
 * events. A third is active. */
static void pairs(void)
{
    static const uint8_t place[][2] = {{0, 1}, {1, 0}, {0, 0}, {1, 1}, {1, 2},
                                       {0, 2}, {0, 1}, {0, 32}, {1, 0}};
    uint32_t turn = 0;
    for (uint32_t i = 0; i < TASKS; i++)
        for (uint32_t j = i + 1; j < TASKS; j++, turn++) {
            uint32_t other = i > 0 ? 0 : j > 1 ? 1 : 2;
            const uint8_t *p = place[turn % COUNT(place)];
            uint32_t event = turn % EVENTS;
            image_tasks(image, TASKS);
            remake(slot(image, other), STATE_ACTIVE);
            wait_at(i, event, p[0]);
            wait_at(j, turn % 13 ? event : (event + 1) % EVENTS, p[1]);
            put(turn % 3 ? KIND_EVENT : KIND_AWAIT_EVENT, (int32_t)event,
                data[turn % COUNT(data)]);
        }
}

/* One waiter, at any place; then in any other state, with the place left, alone
 * or behind another. */
static void places(void)
{
    for (uint32_t p = 0; p < 256; p += p < 40 ? 1 : 43)
        for (uint32_t i = 1; i < TASKS; i += 15) {
            image_tasks(image, TASKS);
            remake(image, STATE_ACTIVE);
            wait_at(i, p % EVENTS, p);
            put(KIND_EVENT, (int32_t)(p % EVENTS), 1);
        }
    for (int state = STATE_ACTIVE; state <= STATE_EXITED; state++)
        for (uint32_t p = 0; p < 6; p++) {
            image_tasks(image, TASKS);
            if (state != STATE_ACTIVE)
                remake(image, STATE_ACTIVE);
            wait_at(7, 2, 0);
            wait_at(9, 2, p % 3);
            if (p < 3)
                remake(slot(image, 7), STATE_REPLY_BLOCKED);
            slot(image, 9)[AT_STATE] = (uint8_t)state;
            if (!uses_waits_for((enum state)state))
                slot(image, 9)[AT_WAITS_FOR] = 0;
            put(KIND_EVENT, 2, 1);
        }
}

/* Each waiter of a crowd at each wrong place, and at an event that is none. */
static void broken(void)
{
    static const uint8_t wrong[] = {0, 1, 2, 4, 5, 6, 31, 32, 128, 255};
    for (uint32_t i = 0; i < 5; i++)
        for (uint32_t j = 0; j < COUNT(wrong); j++) {
            crowd(9, 5, j % 3, 1, false);
            slot(image, 5 + i)[AT_PLACE] = wrong[j];
            put(KIND_EVENT, 9, 1);
        }
    for (uint32_t event = EVENTS - 2; event < 256;
         event += event < 66 ? 1 : 63) {
        crowd(event, 3, 0, 0, false);
        slot(image, 6)[AT_WAITS_FOR] = (uint8_t)event;
        put(KIND_YIELD, 0, 0);
        wait_at(3, 7, 0);
        slot(image, 3)[AT_WAITS_FOR] = (uint8_t)event;
        put(KIND_EVENT, 7, 0);
    }
}

/* A sender, a ready task and a waiter whose queues have one number: each has
 * places of its own. */
static void three_queues(void)
{
    for (uint32_t which = 0; which < 64; which++) {
        image_tasks(image, TASKS);
        remake(slot(image, 4), STATE_ACTIVE);
        for (uint32_t i = 8; i < 14; i++) {
            uint32_t place = which >> (i - 8) & 1;
            slot(image, i)[AT_PRIORITY] = 5;
            if (i < 10)
                wait_at(i, 5, place);
            else if (i < 12)
                send_to(i, 5, place);
            else
                remake(slot(image, i), STATE_READY);
            slot(image, i)[AT_PLACE] = (uint8_t)place;
        }
        put(which % 2 ? KIND_EVENT : KIND_YIELD, 5, 6);
    }
}

/* A wrong place comes behind the areas and before all that a request earns. */
static void order(void)
{
    static const struct request q[] = {
        {KIND_YIELD, {0}}, {0, {0}}, {12, {0}}, {KIND_EVENT, {64, 1}},
        {KIND_EVENT, {-1, 1}}, {KIND_OWN_WRITE, {256, 0}},
        {KIND_OWN_WRITE, {0, -1}}, {KIND_EVENT, {3, 1}}};
    for (uint32_t i = 0; i < COUNT(q); i++)
        for (uint32_t which = 0; which < 8; which++) {
            crowd(3, 4, 0, 0, which % 2);
            slot(image, 5)[AT_PLACE] = (uint8_t)(which / 2);
            put_case(image, AREAS_BYTES, &q[i]);
            put_case(image, AREAS_BYTES + which - 4, &q[i]);
        }
}

int events_cases(void)
{
    crowds();
    pairs();
    places();
    broken();
    three_queues();
    order();
    return 0;
}

/* ---- conversions ---- */

static uint64_t bytes_seed;

/* From each form into each, and back where it was made. */
static void convert(void)
{
    static struct chunk from, to;
    for (int pair = 0; pair < 8; pair++) {
        bool old = pair / 2 % 2, to_old = pair % 2;
        memcpy(from.bytes, image, IMAGE_BYTES);
        if (old)
            image_narrow(from.bytes);
        from.length = old ? OLD_IMAGE_BYTES : IMAGE_BYTES;
        to.length = to_old ? OLD_IMAGE_BYTES : IMAGE_BYTES;
        if (pair >= 4) {         /* the way back of the same pair */
            static struct chunk made;
            made.length = to.length;
            if (peer_convert(given_edition, from.bytes, from.length,
                             made.bytes, made.length) != 0)
                continue;
            to.length = from.length;
            from = made;
        }
        garbage(&bytes_seed, to.bytes, to.length);
        put_word(given_edition);
        put_chunk(&from);
        put_chunk(&to);
    }
}

int events_converts(void)
{
    static const uint32_t size[] = {1, 2, 3, 17, 31, 32};
    uint32_t turn = 0;
    bytes_seed = 5;
    for (unsigned n = 0; n < COUNT(size); n++)
        for (uint32_t way = 0; way < 3; way++)
            for (uint32_t more = 0; more < 4; more++, turn++) {
                uint32_t at = size[n] % TASKS;
                crowd(events[turn % COUNT(events)], size[n], way, turn % 5,
                      more % 2);
                if (more != 3)
                    image_clear(image);
                if (more == 1)   /* a place that is not there, or twice */
                    slot(image, at)[AT_PLACE] ^= (uint8_t)(1u << turn % 6);
                convert();
            }
    return 0;
}
