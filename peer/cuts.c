/* A fixed list about copies that are cut, or just not: whole streams, and cases
 * about them, about byte 15 and about the length of an answer. */
#include <string.h>

#include "generate.h"
#include "images.h"
#include "stored.h"

/* ---- streams: a client, a server, and a third task that may reply ---- */

enum { CLIENT = 1, SERVER = 2, THIRD = 3 };

static const struct table *const k = &followed;

/* The others step aside, each waiting for the event of its own number. */
static void let_run(uint32_t tid)
{
    while (k->active != tid) {
        if (is(k, tid, STATE_EVENT_BLOCKED))
            step(KIND_EVENT, tid, 1, 0, 0, 0);
        else
            step(KIND_AWAIT_EVENT, k->active, 0, 0, 0, 0);
    }
}

/* What a task is shown next must not be taken for cut once more. */
static void go_on(uint32_t n)
{
    switch (n % 7) {
    case 0:
        step(KIND_YIELD, 0, 0, 0, 0, 0);
        break;
    case 1:
        step(KIND_CREATE, PRIORITIES, n, 0, 0, 0);
        break;
    case 2:
        step(KIND_EVENT, 63, 1, 0, 0, 0);
        break;
    case 3:
        step(KIND_AWAIT_EVENT, k->active, 0, 0, 0, 0);
        break;
    case 4:
        step(KIND_MY_TID, 0, 0, 0, 0, 0);
        break;
    case 5:
        step(KIND_OWN_WRITE, n % AREA, 1, 0, 0, 0);
        break;
    default:
        step(KIND_SEND, k->active, 0, 1, 0, 0);
        break;
    }
}

struct lengths {
    uint32_t sent, room;
};

static struct lengths pair(uint32_t n)
{
    static const uint32_t length[] = {0, 1, 2, 3, 127, 128, 129, 254, 255,
                                      256};
    return (struct lengths){length[n % COUNT(length)],
                            length[n / COUNT(length) % COUNT(length)]};
}

enum { PAIRS = 100 };

/* One message and its reply, whose lengths have nothing to do with the
 * message's; it waits at the server, or the server waits for it. */
static void exchange(uint32_t n, bool queued)
{
    struct lengths m = pair(n), r = pair(n * 37 + (queued ? 11 : 64));
    if (!queued) {
        let_run(SERVER);
        step(KIND_RECEIVE, AREA - m.room, m.room, 0, 0, 0);
    }
    let_run(CLIENT);
    step(KIND_SEND, SERVER, AREA - m.sent, m.sent, 0, r.room);
    let_run(SERVER);
    if (queued) {
        step(KIND_RECEIVE, AREA - m.room, m.room, 0, 0, 0);
        let_run(SERVER);
    }
    let_run(n % 3 == 0 ? THIRD : SERVER);
    step(KIND_REPLY, CLIENT, AREA - r.sent, r.sent, 0, 0);
    let_run(n % 2 == 0 ? CLIENT : SERVER);
    go_on(n);
    let_run(n % 2 == 0 ? SERVER : CLIENT);
    go_on(n / 2);
}

int cuts_run(uint32_t pattern)
{
    static const uint32_t server[] = {8, 16, 24, 16}, third[] = {4, 16, 30, 24};
    stream_start(EDITION_SOLE);
    step(KIND_CREATE, server[pattern % 4], pattern, 0, 0, 0);
    let_run(CLIENT);
    step(KIND_CREATE, third[pattern % 4], entry_of(pattern), 0, 0, 0);
    for (uint32_t n = 0; n < PAIRS; n++) {
        exchange(n, n % 2);
        exchange(n, n % 2 == 0);
    }
    return 0;
}

/* ---- cases ---- */

static uint8_t image[IMAGE_BYTES];

static void put(int32_t kind, int32_t a, int32_t b)
{
    put_case(image, AREAS_BYTES, &(struct request){kind, {a, b}});
}

/* Tasks that wait for a reply, the first of them active. */
static void tasks(uint32_t n)
{
    image_tasks(image, n);
    image[AT_STATE] = STATE_ACTIVE;
}

static void hold(uint32_t i, enum result_kind kind, int32_t number,
                 uint32_t from, uint32_t cut)
{
    uint8_t *b = slot(image, i);
    remake(slot(image, i), STATE_READY);
    b[AT_RESULT] = (uint8_t)kind;
    put4(b + AT_NUMBER, number);
    b[AT_FROM] = (uint8_t)from;
    b[AT_CUT] = (uint8_t)cut;
}

/* Every content of byte 15, and for a value all kinds of value. */
static void every_byte(void)
{
    static const int32_t number[] = {0, 1, 6, 255, 256, 257, 65536,
                                     INT32_MAX};
    for (uint32_t cut = 0; cut < 256; cut++) {
        uint32_t n = 2 + cut % 31;
        tasks(n);
        hold(n - 1, RESULT_VALUE, number[cut % 8], cut / 8 % (n + 1), cut);
        put(KIND_YIELD, 0, 0);
        hold(n - 1, RESULT_FAULT, -1 - (int32_t)(cut % 3), 0, cut);
        put(KIND_YIELD, 0, 0);
        hold(n - 1, RESULT_NOTHING, 0, 0, cut);
        put(KIND_YIELD, 0, 0);
    }
    for (unsigned i = 0; i < COUNT(number); i++)
        for (uint32_t from = 0; from <= TASKS; from += 8) {
            tasks(TASKS);
            hold(TASKS - 1, RESULT_VALUE, number[i], from, 1);
            put(KIND_YIELD, 0, 0);
        }
}

/* Tid 2 in each state without a result, with each byte 15 that matters; it may
 * even be the right one. */
static void every_state(void)
{
    static const uint8_t cut[] = {0, 1, 2, 3, 128, 129, 254, 255};
    for (int state = STATE_UNUSED; state <= STATE_EXITED; state++)
        for (unsigned i = 0; i < COUNT(cut); i++)
            for (uint32_t t = 1; t < TASKS; t += 15) {
                tasks(state == STATE_UNUSED ? t : TASKS);
                remake(slot(image, t), (enum state)state);
                if (state == STATE_ACTIVE)
                    remake(slot(image, 0), STATE_REPLY_BLOCKED);
                if (state == STATE_RECEIVE_BLOCKED)
                    slot(image, t)[AT_WAITS_FOR] = 1;
                slot(image, t)[AT_CUT] = cut[i];
                put(KIND_MY_TID, 0, 0);
            }
}

/* Each slot holds a cut value that is shown, and one that is kept while the
 * value of another is shown, cut or whole. */
static void every_slot(void)
{
    for (uint32_t i = 1; i < TASKS; i++) {
        uint32_t j = i == 1 ? 2 : 1;
        for (uint32_t cut = 0; cut < 4; cut++) {
            tasks(TASKS);
            hold(i, RESULT_VALUE, (int32_t)i, i / 2, cut % 2);
            put(KIND_YIELD, 0, 0);
            hold(j, RESULT_VALUE, 7, 1, cut / 2);
            slot(image, i)[AT_PLACE] = 1;
            put(KIND_YIELD, 0, 0);
            slot(image, j)[AT_PRIORITY] = FIRST_PRIORITY + 1;
            slot(image, i)[AT_PLACE] = 0;
            put(KIND_EXIT, 0, 0);
        }
    }
}

static void refused_steps(void)
{
    for (uint32_t cut = 1; cut < 4; cut++) {
        tasks(4);
        hold(2, RESULT_VALUE, 9, 2, cut);
        hold(3, RESULT_VALUE, 0, 0, 1);
        slot(image, 3)[AT_PLACE] = 1;
        put(0, 0, 0);
        put(12, 0, 0);
        put(KIND_EVENT, 64, 0);
        put(KIND_EVENT, -1, 0);
        put(KIND_OWN_WRITE, 256, 0);
        put(KIND_OWN_WRITE, 0, -1);
        put(KIND_OWN_WRITE, 0, 65);
        put_case(image, AREAS_BYTES - 1, &(struct request){KIND_YIELD, {0}});
        remake(slot(image, 0), STATE_EXITED);
        put(KIND_YIELD, 0, 0);
        remake(slot(image, 2), STATE_EXITED);
        remake(slot(image, 3), STATE_EXITED);
        slot(image, 3)[AT_CUT] = (uint8_t)(cut - 1);
        put(KIND_YIELD, 0, 0);
        put(KIND_EVENT, 1, 1);
    }
}

/* Tid 1 is the one task with another rule for its parent; here it is not the
 * active one. Its value comes from a task that exited, or from any other. */
static void first_task(void)
{
    static const uint8_t cut[] = {0, 1, 2, 3, 128, 129, 254, 255};
    for (int state = STATE_READY; state <= STATE_EXITED; state++)
        for (unsigned i = 0; i < COUNT(cut); i++) {
            tasks(4);
            hold(0, RESULT_VALUE, 6, i % 5, cut[i]);
            remake(slot(image, 1), STATE_ACTIVE);
            remake(slot(image, 3), STATE_EXITED);
            put(KIND_OWN_WRITE, 0, 1);
            put(KIND_YIELD, 0, 0);
            image[AT_FROM] = 4;
            put(KIND_YIELD, 0, 0);
            remake(slot(image, 0), (enum state)state);
            image[AT_WAITS_FOR] = state == STATE_RECEIVE_BLOCKED ? 2 : 0;
            image[AT_CUT] = cut[i];
            put(KIND_YIELD, 0, 0);
        }
}

/* ---- cases: lengths of answers ---- */

/* Each alone, with a good request that would have changed image and areas. */
static void answer_lengths(void)
{
    static const uint32_t far[] = {96, 120, 128, 255, 256, 256 + 20, 256 + 24,
                                   512 + 24, 640, 768, 6144, 8192, 8192 + 24,
                                   16384 - 232, 16384};
    static const struct request q = {KIND_REPLY, {2, 0, 5}};
    uint32_t length[CHUNKS];
    memcpy(length, right_lengths, sizeof length);
    tasks(3);
    slot(image, 1)[AT_REPLY + 2] = 4;
    for (uint32_t i = 0; i < 65 + COUNT(far); i++) {
        length[ANSWER_CHUNK] = i < 65 ? i : far[i - 65];
        put_lengths(image, length, &q);
    }
}

/* Together with everything else that can be wrong, one at a time and all. */
static void answer_first(void)
{
    static const uint32_t answer[] = {0, 19, 20, 21, 23, 24, 25, 28, 48};
    static const uint32_t wrong[ANSWER_CHUNK] = {IMAGE_BYTES - 1, 8191, 20};
    uint32_t length[CHUNKS];
    for (unsigned i = 0; i < COUNT(answer); i++) {
        for (unsigned which = 0; which < 16; which++) {
            struct request q = {which % 2 ? KIND_YIELD : 12, {0}};
            for (int c = 0; c < ANSWER_CHUNK; c++)
                length[c] = which >> c & 1 ? wrong[c] : right_lengths[c];
            length[ANSWER_CHUNK] = answer[i];
            tasks(3);
            slot(image, 2)[AT_CUT] = which >> 3;
            put_lengths(image, length, &q);
        }
    }
}

/* ---- cases: copies ---- */

/* The caller is tid 1. Who copies from it or into it, and one who is ready and
 * holds a cut value or a whole one, are better, equal or worse. */
static void copy(int32_t kind, uint32_t other, struct lengths l,
                 uint32_t pattern)
{
    static const uint8_t better[] = {16, 15, 17, 16, 15};
    uint32_t ready = other == 1 ? 2 : 1;
    int32_t tid = (int32_t)other + 1;
    uint8_t *b = slot(image, other);
    struct request q = {kind, {tid, 3, 0, 200, 9}};
    tasks(TASKS);
    hold(ready, RESULT_VALUE, 5, 1, pattern % 2);
    slot(image, ready)[AT_PRIORITY] = better[(pattern + 3) % 5];
    b[AT_PRIORITY] = better[pattern % 5];
    remake(slot(image, other), kind == KIND_SEND ? STATE_SEND_BLOCKED
                  : kind == KIND_RECEIVE ? STATE_RECEIVE_BLOCKED
                  : STATE_REPLY_BLOCKED);
    if (kind == KIND_RECEIVE) {
        b[AT_WAITS_FOR] = 1;
        put2(b + AT_MESSAGE, AREA - l.sent);
        put2(b + AT_MESSAGE + 2, l.sent);
        q.arg[0] = (int32_t)(AREA - l.room);
        q.arg[1] = (int32_t)l.room;
    } else {
        uint8_t *at = b + (kind == KIND_SEND ? AT_MESSAGE : AT_REPLY);
        put2(at, AREA - l.room);
        put2(at + 2, l.room);
        q.arg[1] = (int32_t)(AREA - l.sent);
        q.arg[2] = (int32_t)l.sent;
    }
    put_case(image, AREAS_BYTES, &q);
}

int cuts_cases(void)
{
    every_byte();
    every_state();
    every_slot();
    refused_steps();
    answer_lengths();
    answer_first();
    for (uint32_t n = 0; n < 2 * PAIRS; n++)
        for (int32_t kind = KIND_SEND; kind <= KIND_REPLY; kind++)
            copy(kind, 1 + n * 7 % 31, pair(n), n / 10 + n);
    first_task();
    return 0;
}
