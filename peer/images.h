/* What is done to the bytes of an image, made up or damaged. */
#ifndef PEER_IMAGES_H
#define PEER_IMAGES_H

#include "generate.h"
#include "stored.h"

/* Tasks that all wait for a reply, each with an entry of its own. */
void image_tasks(uint8_t *image, uint32_t n);

/* Twenty of them in all states, with results and queues of several sorts. */
void image_mixed(uint8_t *image);
enum { MIXED = 20 };

/* All entries 0; and the old form of it all, without room for them. */
void image_clear(uint8_t *image);
void image_narrow(uint8_t *image);

static inline uint8_t *slot(uint8_t *image, uint32_t i)
{
    return image + i * SLOT_BYTES;
}

static inline void put2(uint8_t *b, uint32_t n)
{
    b[0] = (uint8_t)n;
    b[1] = (uint8_t)(n >> 8);
}

static inline void put4(uint8_t *b, int32_t n)
{
    put2(b, (uint32_t)n);
    put2(b + 2, (uint32_t)n >> 16);
}

static inline uint32_t used(const uint8_t *image)
{
    uint32_t n = 0;
    while (n < TASKS && image[n * SLOT_BYTES] != STATE_UNUSED)
        n++;
    return n;
}

static inline uint8_t nonzero(uint64_t *s)
{
    return (uint8_t)(chance(s, 50) ? 1 : 1 + below(s, 255));
}

/* Keeps what a task has for good: priority, parent and entry. */
static inline void remake(uint8_t *b, enum state state)
{
    memset(b + AT_PLACE, 0, AT_ENTRY - AT_PLACE);
    b[AT_STATE] = (uint8_t)state;
}

static inline void put_room(uint64_t *s, uint8_t *b)
{
    uint32_t length = chance(s, 20) ? 0 : below(s, chance(s, 50) ? 9 : 257);
    put2(b, chance(s, 10) ? AREA - length : below(s, AREA - length + 1));
    put2(b + 2, length);
}

#endif
