/* Images for cases: waiters of events spoiled, or moved so that one edition may
 * still take them. */
#include "damage.h"
#include "pick.h"

static uint8_t waiters_of(uint8_t *image, uint8_t event)
{
    uint8_t count = 0;
    for (uint32_t i = 0; i < TASKS; i++)
        count += slot(image, i)[AT_STATE] == STATE_EVENT_BLOCKED &&
                 slot(image, i)[AT_WAITS_FOR] == event;
    return count;
}

/* Stands last among those who wait for this event; by edition 1 it may not. */
static void wait_last(uint8_t *image, uint8_t *b, uint8_t event)
{
    leave_queue(image, b);
    remake(b, STATE_REPLY_BLOCKED); /* so that it does not count itself */
    b[AT_PLACE] = waiters_of(image, event);
    b[AT_WAITS_FOR] = event;
    b[AT_STATE] = STATE_EVENT_BLOCKED;
}

/* Two of one event change places, which is as good as before. */
static void swap_waiters(uint8_t *image, uint8_t *b)
{
    for (uint32_t i = 0; i < TASKS; i++) {
        uint8_t *other = slot(image, i), kept = b[AT_PLACE];
        if (other == b || !in_one_queue(other, b))
            continue;
        b[AT_PLACE] = other[AT_PLACE];
        other[AT_PLACE] = kept;
        return;
    }
}

/* With i 0, 1 or 2 nothing is wrong after it, by edition 2. */
void damage_waiters(uint64_t *s, uint8_t *image)
{
    uint32_t i = below(s, 9), any = below(s, EVENTS), far = below(s, 224);
    uint8_t *b = find(s, image, IS_EVENT), *other = find(s, image, IS_EVENT);
    uint8_t *blocked = find(s, image, IS_WAITING | IS_SENDING | IS_REPLY);
    if (!b)
        return;
    if (i == 0)
        wait_last(image, b, other[AT_WAITS_FOR]);
    else if (i == 1 && blocked)
        wait_last(image, blocked, b[AT_WAITS_FOR]);
    else if (i == 2)
        swap_waiters(image, b);
    else if (i == 3)             /* the same place twice, if there are two */
        b[AT_PLACE] = b[AT_PLACE] > 0 ? (uint8_t)below(s, b[AT_PLACE]) : 1;
    else if (i == 4)
        b[AT_PLACE]++;
    else if (i == 5)
        b[AT_PLACE] = (uint8_t)(chance(s, 50) ? TASKS : TASKS + far);
    else if (i == 6)             /* those behind it stay where they are */
        remake(b, chance(s, 50) ? STATE_REPLY_BLOCKED : STATE_EXITED);
    else if (i == 7)
        b[AT_WAITS_FOR] = (uint8_t)any;
    else {                       /* a waiter's place in a state without one */
        remake(b, (enum state)PICK(s, STATE_SEND_BLOCKED, STATE_REPLY_BLOCKED,
                                   STATE_EXITED));
        b[AT_PLACE] = nonzero(s);
    }
}
