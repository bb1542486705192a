/* A stored task: where its fields stand, which states use them, and how its
   numbers lie in bytes. */
#ifndef PEER_STORED_H
#define PEER_STORED_H

#include "kernel.h"

#include <string.h>

/* Where the fields of a stored task stand. */
enum {
    AT_STATE = 0,
    AT_PRIORITY = 1,
    AT_PARENT = 2,
    AT_PLACE = 3,
    AT_WAITS_FOR = 4,
    AT_RESULT = 5,
    AT_MESSAGE = 6,
    AT_REPLY = 10,
    AT_FROM = 14,
    AT_CUT = 15,
    AT_NUMBER = 16,
    AT_ENTRY = 20 /* last, so that the old form is the rest */
};

static inline uint32_t get16(const uint8_t *b)
{
    return (uint32_t)b[0] | (uint32_t)b[1] << 8;
}

static inline uint32_t get32(const uint8_t *b)
{
    return get16(b) | get16(b + 2) << 16;
}

/* By memcpy, as C11 leaves the cast of a large number to the compiler. */
static inline int32_t get_signed32(const uint8_t *b)
{
    uint32_t u = get32(b);
    int32_t s;

    memcpy(&s, &u, sizeof s);
    return s;
}

static inline void put16(uint8_t *b, uint32_t u)
{
    b[0] = (uint8_t)u;
    b[1] = (uint8_t)(u >> 8);
}

static inline void put32(uint8_t *b, uint32_t u)
{
    put16(b, u);
    put16(b + 2, u >> 16);
}

/* Which states use which fields: read and written by the same rule. */

static inline bool is_queued(enum state s)
{
    return s == STATE_READY || s == STATE_RECEIVE_BLOCKED
        || s == STATE_EVENT_BLOCKED;
}

/* Who waits for an event alone needs no place. */
static inline bool uses_place(enum state s, uint32_t edition)
{
    return is_queued(s)
        && (s != STATE_EVENT_BLOCKED || edition == EDITION_CROWD);
}

static inline bool uses_waits_for(enum state s)
{
    return s == STATE_RECEIVE_BLOCKED || s == STATE_EVENT_BLOCKED;
}

static inline bool uses_message(enum state s)
{
    return s == STATE_SEND_BLOCKED || s == STATE_RECEIVE_BLOCKED;
}

static inline bool uses_reply(enum state s)
{
    return s == STATE_RECEIVE_BLOCKED || s == STATE_REPLY_BLOCKED;
}

#endif
