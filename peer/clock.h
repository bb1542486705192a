/* The clock service of request P1: who sleeps in it, and what it answers to
   each message that reaches it. */
#ifndef PEER_CLOCK_H
#define PEER_CLOCK_H

#include <stdbool.h>
#include <stdint.h>

enum {
    CLOCK_PLACES = 16,
    CLOCK_MESSAGE_BYTES = 8,
    CLOCK_RECORD_BYTES = 16,
    CLOCK_ANSWERS = 1 + CLOCK_PLACES /* a tick's own and every sleeper's */
};

enum clock_op {
    OP_TICK = 1,
    OP_TIME = 2,
    OP_DELAY = 3,
    OP_DELAY_UNTIL = 4
};

enum clock_status {
    STATUS_GOOD = 0,
    STATUS_NEGATIVE = -2,
    STATUS_FULL = -3,
    STATUS_WRONG = -4 /* no form, no right to tick, or asleep already */
};

struct sleeper {
    uint32_t tid;
    uint32_t due; /* the count at which it is answered */
};

struct clock {
    uint32_t notifier, count;
    uint32_t asleep;                      /* places taken */
    struct sleeper sleeper[CLOCK_PLACES]; /* in order of arrival, no gaps */
};

/* The length is what the kernel told, and need not be that of two words. */
struct clock_message {
    uint32_t sender, length, op, argument;
};

struct clock_answer {
    uint32_t tid;
    int32_t status;
    uint32_t count;
};

/* The first is replied first. */
struct clock_answers {
    uint32_t number;
    struct clock_answer answer[CLOCK_ANSWERS];
};

void clock_start(struct clock *c, uint32_t notifier, uint32_t count);
void clock_hear(struct clock *c, const struct clock_message *m,
                struct clock_answers *given);

bool clock_is_asleep(const struct clock *c, uint32_t tid);
bool clock_is_due(uint32_t count, uint32_t due);

/* When a delay of either sort ends, heard at the clock's count. */
uint32_t clock_due(const struct clock *c, const struct clock_message *m);

#endif
