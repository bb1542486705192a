/* Entry numbers, and a fixed list about them: streams, and cases. */
#include <string.h>

#include "images.h"

/* Of an even number it is not 0. */
uint32_t listed_entry(uint32_t n)
{
    static const uint32_t entry[ENTRIES] = {
        1, 0, 0x04030201, UINT32_MAX, 0x100, 0x80, 1u << 31, 2, 0x01020304,
        0x10000, 0xFF, INT32_MAX, 0x1000000, 0x0201, UINT32_MAX - 1, 0x7F};
    return entry[n % ENTRIES];
}

/* Of a swapped or a lost byte something shows, of a wrong slot too. */
uint32_t entry_of(uint32_t slot)
{
    return (slot + 1) | (slot + 0x40) << 8 | (slot + 0x80) << 16
           | (slot + 0xC0) << 24;
}

uint32_t some_entry(uint64_t *s)
{
    uint32_t n = (uint32_t)(draw(s) >> 32), at = 8 * below(s, 4);
    switch (below(s, 8)) {
    case 0:
        return 0;
    case 1:
        return 1 + n % 40;
    case 2:
        return UINT32_MAX - n % (n >> 31 ? 3 : 200);
    case 3:                      /* one byte alone */
        return (1 + n % 255) << at;
    case 4:
        return listed_entry(n);
    case 5:
        return entry_of(n % TASKS);
    case 6:                      /* as an address may be */
        return 0x8000 + 4 * (n % 65536);
    default:
        return n;
    }
}

/* ---- streams: no line shows an entry, nor may one change a line ---- */

int entries_run(uint32_t pattern)
{
    const struct table *k = &followed;
    stream_start(EDITION_SOLE);
    for (uint32_t n = 0; k->used < TASKS; n++) {
        uint32_t priority = pattern % 2 ? n % PRIORITIES : PRIORITIES - 1 - n;
        step(KIND_CREATE, priority, listed_entry(n + pattern), n, ~n, 1);
        if (n % 5 == 0)
            step(KIND_CREATE, PRIORITIES, listed_entry(n + 1), 0, 0, 0);
        if (n % 7 == 0)
            step(KIND_MY_TID, 0, listed_entry(n), 0, 0, 0);
        step(n % 3 ? KIND_YIELD : KIND_MY_PARENT_TID, 0, 0, 0, 0, 0);
    }
    for (uint32_t n = 0; n < ENTRIES; n++)
        step(KIND_CREATE, n % 3 ? n : UINT32_MAX, listed_entry(n), 0, 0, 0);
    for (uint32_t n = 0; n <= TASKS; n++)
        step(n % 2 ? KIND_EXIT : KIND_CREATE, 3, listed_entry(n), 0, 0, 0);
    return 0;
}

/* ---- cases ---- */

static uint8_t image[IMAGE_BYTES];

static void put(int32_t kind, int32_t a, int32_t b)
{
    put_case(image, AREAS_BYTES, &(struct request){kind, {a, b, -1, 7, 9}});
}

static void tasks(uint32_t n)
{
    image_tasks(image, n);
    image[AT_STATE] = STATE_ACTIVE;
}

/* One slot in some state; of the others the first is active, unless it is. */
static void in_state(uint32_t i, enum state state)
{
    uint8_t *b = slot(image, i);
    tasks(TASKS);
    if (i == 0 || state == STATE_ACTIVE)
        remake(slot(image, i == 0 ? 1 : 0),
               state == STATE_ACTIVE ? STATE_REPLY_BLOCKED : STATE_ACTIVE);
    remake(b, state);
    if (state == STATE_RECEIVE_BLOCKED)
        b[AT_WAITS_FOR] = i == 0 ? 2 : 1;
    if (state == STATE_EVENT_BLOCKED)
        b[AT_WAITS_FOR] = (uint8_t)i;
}

/* An entry is kept through a step, whatever its task is and does. */
static void kept(void)
{
    static const int32_t kind[] = {KIND_YIELD, KIND_EXIT, KIND_MY_TID,
                                   KIND_EVENT, KIND_RECEIVE, 0, KIND_REPLY};
    uint32_t n = 0;
    for (uint32_t i = 0; i < TASKS; i++)
        for (int state = STATE_ACTIVE; state <= STATE_EXITED; state++, n++) {
            in_state(i, (enum state)state);
            put32(slot(image, i) + AT_ENTRY, listed_entry(i + n));
            put(kind[(n + i) % COUNT(kind)], (int32_t)i, 4);
        }
    for (int32_t k = KIND_CREATE - 1; k <= KIND_OWN_WRITE + 1; k++)
        for (int32_t a = 0; a < 3; a++) {
            image_mixed(image);
            put(k, a == 0 ? 9 : a == 1 ? 1 : 300, a);
        }
}

/* The caller is the first or the last slot; the new task, made for it, is of a
 * better, the same or a worse priority, and at times of a task's own entry. */
static void made(void)
{
    for (uint32_t n = 1; n < TASKS; n++)
        for (uint32_t i = 0; i < ENTRIES; i++) {
            tasks(n);
            if (i % 2)
                image_clear(image);
            if (n % 2 && n > 1) {
                remake(image, STATE_EXITED);
                remake(slot(image, n - 1), STATE_ACTIVE);
            }
            put(KIND_CREATE, 15 + (int32_t)(n + i) % 3,
                (int32_t)(i > 1 ? listed_entry(i + n)
                          : entry_of(i % 2 ? n : n - 1)));
        }
}

/* Where Create faults nothing is kept of its entry. */
static void not_made(void)
{
    static const int32_t priority[] = {-1, 32, 0, 31, 256 + 16, INT32_MIN};
    for (uint32_t n = TASKS - 1; n <= TASKS; n++)
        for (unsigned p = 0; p < COUNT(priority); p++)
            for (uint32_t i = 0; i < ENTRIES; i += 3) {
                tasks(n);
                put(KIND_CREATE, priority[p], (int32_t)listed_entry(i + p));
            }
}

/* A slot that is not given out has no entry, and does not become a task by one,
 * even if it has a parent too; this comes before any refusal that a request may
 * earn, and behind the areas. */
static void not_given_out(void)
{
    static const struct request q[] = {
        {KIND_CREATE, {8, 3}}, {KIND_YIELD, {0}}, {0, {0}}, {12, {0}},
        {KIND_EVENT, {64, 1}}, {KIND_EVENT, {3, 1}},
        {KIND_OWN_WRITE, {256, 0}}};
    uint32_t turn = 0;
    for (uint32_t n = 1; n < TASKS; n++)
        for (uint32_t at = 0; at < 8; at++, turn++) {
            uint32_t i = at < 4 ? n : TASKS - 1;
            tasks(n);
            if (turn % 3 == 0)
                remake(image, STATE_EXITED);
            slot(image, i)[AT_ENTRY + at % 4] = (uint8_t)(1u << turn % 8);
            slot(image, i)[AT_PARENT] = turn % 11 == 0;
            put_case(image, turn % 16 ? AREAS_BYTES : AREAS_BYTES - 1,
                     &q[turn % COUNT(q)]);
        }
}

/* The old form of a good image is not taken, nor any other length; where more
 * is wrong, 10 and 5 come first, and then this. */
static void lengths(void)
{
    static const uint32_t wrong[] = {
        0, 20, 24, 128, 256, 512, 639, 640, 641, 744, 760, 764, 767, 768, 769,
        772, 792, 896, 1024, 1280, 1536, 3840, LONGEST};
    static const uint32_t other[] = {OLD_IMAGE_BYTES, AREAS_BYTES - 1,
                                     RECORD_BYTES - 4, ANSWER_BYTES - 4};
    for (unsigned i = 0; i < COUNT(wrong); i++)
        for (unsigned which = 0; which < 16; which++) {
            struct request q = {which % 2 ? KIND_CREATE : 12, {8, 5}};
            uint32_t length[CHUNKS];
            for (int c = 1; c < CHUNKS; c++)
                length[c] = which >> c & 1 ? other[c] : right_lengths[c];
            length[IMAGE_CHUNK] = wrong[i];
            tasks(1 + (i + which) % TASKS);
            if (which % 2)
                image_narrow(image);
            put_lengths(image, length, &q);
        }
}

int entries_cases(void)
{
    kept();
    made();
    not_made();
    not_given_out();
    lengths();
    return 0;
}
