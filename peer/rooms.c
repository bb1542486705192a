/* Buffers for the arguments of requests. */
#include <stddef.h>

#include "generate.h"
#include "pick.h"

static void good_room(struct world *w, int32_t *offset, int32_t *length)
{
    uint64_t *s = &w->seed;
    uint32_t style = below(s, 10);
    *length = style < 2 ? 0 : style < 6 ? (int32_t)below(s, 9)
              : style < 9 ? (int32_t)below(s, AREA + 1)
              : AREA - (int32_t)below(s, 2);
    *offset = (int32_t)below(s, (uint32_t)(AREA - *length + 1));
    if (chance(s, 5)) {          /* right up to the end */
        *length = PICK(s, 0, 1, 2);
        *offset = AREA - *length;
    }
}

void room_bad(struct world *w, int32_t *offset, int32_t *length)
{
    static const int32_t bad[][2] = {
        {255, 2}, {256, 1}, {257, 0}, {0, 257}, {-1, 1}, {1, -1}, {-1, -1},
        {INT32_MAX, 1}, {1, INT32_MAX}, {INT32_MAX, INT32_MAX}, {-1, 0},
        {0, -1}, {INT32_MIN, INT32_MIN}, {INT32_MIN, 0}, {128, 129},
        {300, -100}, {-100, 300}, {65536, 0}, {0, 65536}, {65535, 1}};
    uint32_t i = below(&w->seed, sizeof bad / sizeof bad[0]);
    *offset = bad[i][0];
    *length = bad[i][1];
}

void room(struct world *w, int32_t *arg)
{
    if (chance(&w->seed, 3))
        room_bad(w, arg, arg + 1);
    else
        good_room(w, arg, arg + 1);
}

/* Two lengths drawn apart from each other seldom meet; so half of those that
 * will be held against a known one are made to lie about it. */
void room_facing(struct world *w, int32_t *arg, const struct buffer *other)
{
    uint64_t *s = &w->seed;
    int32_t length;
    if (other == NULL || chance(s, 50)) {
        room(w, arg);
        return;
    }
    length = (int32_t)other->length + PICK(s, 0, 0, -1, -1, 1, 1, -2, 2);
    if (chance(s, 10))
        length = PICK(s, 0, 1, AREA - 1, AREA);
    arg[1] = length < 0 ? 0 : length > AREA ? AREA : length;
    arg[0] = (int32_t)below(s, (uint32_t)(AREA - arg[1] + 1));
}
