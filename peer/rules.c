/* A fixed list of images with one byte set: each byte of a task in each state,
 * which may be the first one or another. */
#include <string.h>

#include "images.h"

enum { NUMBER = 12 };

static uint8_t image[IMAGE_BYTES];

/* All fields are those of its state; one of the others is active, unless it is
 * itself. Of the first and another that are ready one holds a value. */
static void in_state(uint32_t i, enum state state)
{
    uint8_t *b = slot(image, i);
    image_tasks(image, NUMBER);
    if (state != STATE_ACTIVE)
        remake(slot(image, i == 0), STATE_ACTIVE);
    remake(b, state);
    if (uses_waits_for(state))
        b[AT_WAITS_FOR] = 5;
    if (uses_message(state))
        put32(b + AT_MESSAGE, 2u << 16 | 250);
    if (uses_reply(state))
        put32(b + AT_REPLY, 255u << 16 | 1);
    if (state == STATE_READY && i > 0) {
        b[AT_RESULT] = RESULT_VALUE;
        put32(b + AT_NUMBER, 300);
    }
}

/* Good ones, and some that a refusal would follow. */
static const struct request requests[] = {
    {KIND_YIELD, {0}}, {KIND_EVENT, {5, 1}}, {0, {0}}, {KIND_EXIT, {0}},
    {KIND_EVENT, {64, 1}}, {KIND_AWAIT_EVENT, {5}}, {KIND_OWN_WRITE, {256, 0}}};

int rules_cases(void)
{
    static const uint8_t is[] = {0, 1, 32, 255};
    uint32_t turn = 0;
    for (int state = STATE_ACTIVE; state <= STATE_EXITED; state++)
        for (uint32_t i = 0; i < NUMBER; i += NUMBER - 3) {
            for (uint32_t at = 0; at < SLOT_BYTES; at++)
                for (unsigned n = 0; n < COUNT(is); n++, turn++) {
                    in_state(i, (enum state)state);
                    slot(image, i)[at] = is[n];
                    put_case(image, AREAS_BYTES,
                             &requests[turn % COUNT(requests)]);
                }
            in_state(i, (enum state)state); /* behind one not given out */
            memcpy(slot(image, NUMBER + 1 + i), slot(image, i), SLOT_BYTES);
            put_case(image, AREAS_BYTES, &requests[turn % COUNT(requests)]);
            if (i == 0)
                continue;
            remake(slot(image, i - 1), STATE_UNUSED);
            put_case(image, AREAS_BYTES, &requests[turn % COUNT(requests)]);
        }
    return 0;
}
