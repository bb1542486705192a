/* Images for cases: one thing of a good one spoiled. */
#include <stddef.h>
#include <string.h>

#include "damage.h"
#include "pick.h"

uint8_t *find(uint64_t *s, uint8_t *image, unsigned states)
{
    unsigned state = 1 + below(s, 7);
    uint32_t start = below(s, TASKS);
    uint8_t *any = NULL;
    for (uint32_t i = 0; i < TASKS; i++) {
        uint8_t *b = slot(image, (start + i) % TASKS);
        if (b[0] < STATES && states >> b[0] & 1) {
            if (b[0] == state)
                return b;
            any = b;
        }
    }
    return any;
}

bool in_one_queue(const uint8_t *a, const uint8_t *b)
{
    return a[0] == b[0] && ((a[0] == STATE_READY && a[1] == b[1]) ||
                            (a[0] != STATE_READY && is_queued(a[0]) &&
                             a[4] == b[4]));
}

void leave_queue(uint8_t *image, const uint8_t *b)
{
    for (uint32_t i = 0; i < TASKS; i++) {
        uint8_t *other = slot(image, i);
        if (in_one_queue(other, b) && other[3] > b[3])
            other[3]--;
    }
}

static void set_result(uint8_t *b, uint8_t kind, int32_t number, uint32_t from)
{
    b[5] = kind;
    b[14] = (uint8_t)from;
    if (kind != RESULT_VALUE)
        b[15] = 0;
    put4(b + 16, number);
}

static void bad_room(uint64_t *s, uint8_t *b)
{
    static const uint16_t bad[][2] = {
        {257, 0}, {256, 1}, {255, 2}, {0, 257}, {1, 256}, {128, 129},
        {65535, 1}, {1, 65535}, {65535, 65535}, {32768, 32768}, {512, 0}};
    uint32_t i = below(s, sizeof bad / sizeof bad[0]);
    put2(b, bad[i][0]);
    put2(b + 2, bad[i][1]);
}

/* Fields of one record: what a state does not use, and plain ranges. */
static void damage_field(uint64_t *s, uint8_t *image)
{
    static const struct { uint8_t states, at; } unused[] = {
        {0xEA, 3}, {0xAE, 4}, {0xE6, 6}, {0xE6, 8}, {0xCE, 10}, {0xCE, 12}};
    uint32_t i = below(s, 8), half = below(s, 2);
    uint8_t *b = find(s, image, i < 6 ? unused[i].states : ANY);
    if (!b)
        return;
    if (i < 6)
        b[unused[i].at + (i >= 2 ? half : 0)] = nonzero(s);
    else if (i == 6)
        b[0] = (uint8_t)(chance(s, 30) ? 8 : 8 + below(s, 248));
    else
        b[1] = (uint8_t)(chance(s, 30) ? 32 : 32 + below(s, 224));
}

static void damage_result(uint64_t *s, uint8_t *image)
{
    static const int32_t bad_fault[] = {0, -4, 1, 3, INT32_MIN, INT32_MAX,
                                        255, 253, -257, -65537};
    uint32_t i = below(s, 8), n = used(image), from = below(s, n);
    uint8_t *b = find(s, image, i == 1 ? 0xFA : i < 4 ? ANY : IS_READY);
    if (!b)
        return;
    if (i == 0)
        b[5] = (uint8_t)(chance(s, 50) ? 3 : 3 + below(s, 253));
    else if (i == 1)
        set_result(b, (uint8_t)(1 + below(s, 2)), 0, 0);
    else if (i == 2)
        set_result(b, RESULT_NOTHING, 0, nonzero(s));
    else if (i == 3)
        set_result(b, RESULT_NOTHING, 1 << below(s, 31), 0);
    else if (i == 4)
        set_result(b, RESULT_VALUE, INT32_MIN + (int32_t)(draw(s) & INT32_MAX),
                   from);
    else if (i == 5)
        set_result(b, RESULT_VALUE, 7,
                   n + 1 + (chance(s, 50) ? 0 : below(s, 223)));
    else if (i == 6)
        set_result(b, RESULT_FAULT, bad_fault[below(s, 10)], 0);
    else
        set_result(b, RESULT_FAULT, -1 - (int32_t)below(s, 3), 1 + from);
    if (i == 1 && b[5] == RESULT_FAULT)
        put4(b + 16, -1 - (int32_t)below(s, 3));
}

static uint8_t past_one(uint64_t *s)
{
    return (uint8_t)(chance(s, 50) ? PICK(s, 2, 3, 128, 129, 254, 255)
                                   : 2 + (int32_t)below(s, 254));
}

/* Byte 15, which tells of a value; with i 0 nothing is wrong after it. */
static void damage_cut(uint64_t *s, uint8_t *image)
{
    uint32_t n = used(image), i = below(s, 8), from = below(s, n + 1);
    int32_t number = PICK(s, 0, 1, 256, 257, INT32_MAX);
    uint8_t *b = find(s, image, i < 4 ? IS_READY : ANY);
    if (i == 7 && n < TASKS)
        b = slot(image, chance(s, 50) ? n : n + below(s, TASKS - n));
    if (!b)
        return;
    if (i == 0 || i == 1)
        set_result(b, RESULT_VALUE, number, from);
    else if (i == 2 || i == 3)
        set_result(b, RESULT_FAULT, -1 - (int32_t)below(s, 3), 0);
    else if (b[0] == STATE_READY)
        set_result(b, RESULT_NOTHING, 0, 0);
    b[15] = i == 1 || i == 3 || i == 5 ? past_one(s) : 1;
}

/* An entry number: wrong only where there is no task; with i 0 or 1 nothing is
 * wrong after it. */
static void damage_entry(uint64_t *s, uint8_t *image)
{
    uint32_t n = used(image), i = below(s, 4), entry = some_entry(s);
    uint8_t *b = find(s, image, ANY);
    if (i >= 2 && n < TASKS)
        b = slot(image, i == 2 ? n : n + below(s, TASKS - n));
    if (!b)
        return;
    if (i == 0)
        entry ^= get32(b + AT_ENTRY);
    if (i == 3)                  /* one bit alone */
        entry = 1u << below(s, 32);
    put32(b + AT_ENTRY, entry);
}

static void damage_parent(uint64_t *s, uint8_t *image)
{
    uint32_t n = used(image), i = below(s, 3);
    uint32_t t = n > 1 ? 1 + below(s, n - 1) : 0;
    if (i == 0 || n < 2)
        image[2] = nonzero(s);
    else
        slot(image, t)[2] =
            (uint8_t)(i == 1 ? 0 : t + 1 + (chance(s, 60) ? 0 : below(s, 223)));
}

/* Rooms, targets and events in use, but wrong. */
static void damage_name(uint64_t *s, uint8_t *image)
{
    uint32_t i = below(s, 7), n = used(image);
    uint8_t *b = find(s, image, i == 0 ? IS_WAITING | IS_SENDING
                                : i == 1 ? IS_SENDING | IS_REPLY
                                : i < 5 ? IS_SENDING : IS_EVENT);
    uint8_t *other = find(s, image, IS_EVENT);
    if (!b)
        return;
    if (i >= 2 && i < 5 && chance(s, 70)) {
        leave_queue(image, b);   /* so that its target alone is wrong */
        b[3] = 0;
    }
    if (i < 2)
        bad_room(s, b + (i == 0 ? 6 : 10));
    else if (i == 2)
        b[4] = 0;
    else if (i == 3)
        b[4] = (uint8_t)(n + 1 + (chance(s, 50) ? 0 : below(s, 223)));
    else if (i == 4)
        b[4] = (uint8_t)((b - image) / SLOT_BYTES + 1);
    else if (i == 5)
        b[4] = (uint8_t)(chance(s, 50) ? 64 : 64 + below(s, 192));
    else
        b[4] = other[4];
}

static void damage_place(uint64_t *s, uint8_t *image)
{
    uint8_t *a = find(s, image, IS_READY | IS_SENDING);
    uint8_t *b = find(s, image, IS_READY | IS_SENDING), kept;
    if (!a)
        return;
    switch (below(s, 6)) {
    case 0:
        a[3] = (uint8_t)(chance(s, 50) ? 32 : 32 + below(s, 224));
        break;
    case 1:
        a[3] = (uint8_t)(a[3] > 0 ? below(s, a[3]) : 1);
        break;
    case 2:
        a[3]++;
        break;
    case 3:                      /* the two at once may even be good */
        kept = a[3];
        a[3] = b[3];
        b[3] = kept;
        break;
    case 4:
        a[3] = b[3];
        break;
    default:                     /* leaves its queue, joins another */
        a[a[0] == STATE_READY ? 1 : 4] = (uint8_t)(1 + below(s, 31));
        break;
    }
}

/* What only the whole table shows. */
static void damage_whole(uint64_t *s, uint8_t *image)
{
    uint32_t n = used(image), i = below(s, 6);
    uint32_t at = 1 + below(s, SLOT_BYTES - 1);
    uint8_t *b = find(s, image, i == 1 ? IS_ACTIVE : i == 2 ? IS_SENDING
                      : IS_WAITING | IS_REPLY | IS_EVENT | IS_EXITED);
    if (i == 0 && b) {
        remake(b, STATE_ACTIVE);
    } else if (i == 1 && b) {
        remake(b, STATE_EXITED);
    } else if (i == 2 && b && b[4] >= 1 && b[4] <= TASKS) {
        b = slot(image, b[4] - 1u);
        if (b[0] >= STATE_REPLY_BLOCKED)
            remake(b, STATE_SEND_BLOCKED);
    } else if (i == 3 && n < TASKS) {
        b = slot(image, n + below(s, TASKS - n));
        b[at] = nonzero(s);
    } else if (i == 4 && n > 1) {
        memset(slot(image, below(s, n - 1)), 0, SLOT_BYTES);
    } else if (i == 5 && n > 0 && n < TASKS - 1) {
        b = find(s, image, ANY);
        if (b)
            memcpy(slot(image, n + 1 + below(s, TASKS - n - 1)), b,
                   SLOT_BYTES);
    }
}

/* ---- damage: senders at a task that exited, and nothing else wrong ---- */

static uint8_t senders_at(uint8_t *image, uint8_t tid)
{
    uint8_t count = 0;
    for (uint32_t i = 0; i < TASKS; i++)
        count += slot(image, i)[0] == STATE_RECEIVE_BLOCKED &&
                 slot(image, i)[4] == tid;
    return count;
}

/* A task exits and leaves its senders queued; if it was the active one,
 * another goes on. */
static void exit_in_place(uint64_t *s, uint8_t *image, uint8_t *b)
{
    uint8_t *next = find(s, image, IS_READY);
    bool was_active = b[0] == STATE_ACTIVE;
    leave_queue(image, b);
    remake(b, STATE_EXITED);
    if (was_active && next) {
        leave_queue(image, next);
        remake(next, STATE_ACTIVE);
    }
}

/* Some blocked task now stands last in the queue of this one. */
static void queue_up(uint64_t *s, uint8_t *image, const uint8_t *target)
{
    uint8_t tid = (uint8_t)((target - image) / SLOT_BYTES + 1);
    uint8_t *b = find(s, image, IS_WAITING | IS_SENDING | IS_REPLY | IS_EVENT);
    if (!b || b == target)
        return;
    leave_queue(image, b);
    remake(b, STATE_RECEIVE_BLOCKED);
    b[3] = senders_at(image, tid);
    b[4] = tid;
    put_room(s, b + 6);
    put_room(s, b + 10);
}

/* Somebody who exited, or now does; at times the first task or the last. */
static uint8_t *some_exited(uint64_t *s, uint8_t *image)
{
    uint32_t n = used(image);
    uint8_t *b = find(s, image, IS_EXITED);
    if (n > 0 && chance(s, 25))
        b = slot(image, chance(s, 50) ? 0 : n - 1);
    if (!b)
        b = find(s, image, IS_WAITING | IS_REPLY | IS_EVENT);
    if (b && b[0] != STATE_EXITED)
        exit_in_place(s, image, b);
    return b;
}

static void damage_target(uint64_t *s, uint8_t *image)
{
    uint8_t *b = find(s, image, IS_SENDING), *gone;
    uint32_t more = chance(s, 60) ? 1 : 1 + below(s, 5);
    if (chance(s, 40)) {
        if (b && b[4] >= 1 && b[4] <= TASKS)
            exit_in_place(s, image, slot(image, b[4] - 1u));
        return;
    }
    gone = some_exited(s, image);
    for (; gone && more > 0; more--)
        queue_up(s, image, gone);
}

static void damage_rough(uint64_t *s, uint8_t *image)
{
    uint32_t i = below(s, TASKS), j = below(s, TASKS), style = below(s, 20);
    uint32_t at = below(s, SLOT_BYTES), range = chance(s, 50) ? 8 : 256;
    uint8_t kept[SLOT_BYTES];
    if (style < 8) {
        for (uint32_t flips = 1 + below(s, 3); flips > 0; flips--) {
            uint8_t bit = (uint8_t)(1 << below(s, 8));
            image[below(s, IMAGE_BYTES)] ^= bit;
        }
    } else if (style < 12) {
        slot(image, i % (used(image) + 1) % TASKS)[at] = (uint8_t)draw(s);
    } else if (style < 14) {
        memcpy(kept, slot(image, i), SLOT_BYTES);
        memcpy(slot(image, i), slot(image, j), SLOT_BYTES);
        memcpy(slot(image, j), kept, SLOT_BYTES);
    } else if (style < 17) {
        slot(image, i)[0] = (uint8_t)below(s, STATES);
    } else if (style < 18) {
        memset(image, 0, IMAGE_BYTES);
    } else if (style < 19) {
        memset(image, (int)below(s, 256), IMAGE_BYTES);
    } else {
        for (uint32_t k = 0; k < IMAGE_BYTES; k++)
            image[k] = (uint8_t)below(s, range);
    }
}

void image_damage(uint64_t *s, uint8_t *image)
{
    static void (*const damage[])(uint64_t *, uint8_t *) = {
        damage_field, damage_field, damage_field, damage_result,
        damage_result, damage_cut, damage_cut, damage_entry, damage_parent,
        damage_name, damage_place, damage_whole, damage_target, damage_rough,
        damage_waiters, damage_waiters};
    damage[below(s, sizeof damage / sizeof damage[0])](s, image);
}
