/* Calls of the clock's tasks, for counting: clock WHAT ASLEEP CALLS. The state is put back after each call, so that all are alike; `none`
 * does that alone. */
#include <stdio.h>
#include <stdlib.h>
#include <string.h>
#include "bredonych.h"
#include "bredonych_clock.h"

enum { NOTIFIER = 3, FIRST_CLIENT = 4, KIND_AT = 8, VALUE_AT = 12, FROM_AT = 16, TICK = 1, FAR = 1000000 };

static uint8_t state[BREDONYCH_CLOCK_STATE], kept[BREDONYCH_CLOCK_STATE], call[BREDONYCH_CLIENT_STATE], notifier[BREDONYCH_NOTIFIER_STATE];
static uint8_t area[BREDONYCH_AREA], request[BREDONYCH_REQUEST], answer[BREDONYCH_ANSWER];

static void put_word(uint8_t *b, uint32_t x)
{
    for (int i = 0; i < 4; i++)
        b[i] = (uint8_t)(x >> (8 * i) & 255u);
}

static void must(uint32_t verdict)
{
    if (verdict != BREDONYCH_ACCEPTED)
        exit(1);
}

/* A message is told to the clock: who sent it, and what it says. */
static void message(uint32_t from, uint32_t op, uint32_t argument)
{
    put_word(area, op);
    put_word(area + 4, argument);
    put_word(answer + KIND_AT, BREDONYCH_VALUE);
    put_word(answer + VALUE_AT, BREDONYCH_CLOCK_MESSAGE);
    put_word(answer + FROM_AT, from);
    must(clock_told(state, sizeof state, answer, sizeof answer, area, sizeof area));
}

static void clock_makes(void) { must(clock_asks(state, sizeof state, request, sizeof request)); }

/* A clock that listens, with so many asleep. */
static void prepare(int asleep)
{
    must(clock_start(0, state, sizeof state));
    clock_makes();
    put_word(answer + KIND_AT, BREDONYCH_VALUE);
    put_word(answer + VALUE_AT, NOTIFIER);
    must(clock_told(state, sizeof state, answer, sizeof answer, area, sizeof area));
    clock_makes();
    for (int i = 0; i < asleep; i++) {
        message((uint32_t)(FIRST_CLIENT + i), BREDONYCH_DELAY, FAR);
        clock_makes();
    }
    must(client_start(2, BREDONYCH_DELAY, 2, 0, call, sizeof call));
    must(notifier_start(0, notifier, sizeof notifier));
}

int main(int count, char **words)
{
    if (count != 4)
        return 2;
    prepare(atoi(words[2]));
    if (strcmp(words[1], "asks") == 0) {
        message(FIRST_CLIENT - 1, BREDONYCH_TIME, 0);
        clock_makes(); /* the first byte of the answer; the next is counted */
    }
    memcpy(kept, state, sizeof kept);
    for (int i = atoi(words[3]); i > 0; i--) {
        switch (words[1][2]) {
        case 'k': clock_makes(); break;                                 /* asks */
        case 'c': message(NOTIFIER, TICK, 0); break;                    /* tick */
        case 'm': message(FIRST_CLIENT + 20, BREDONYCH_TIME, 0); break; /* time */
        case 'l': /* call */
            must(client_asks(call, sizeof call, request, sizeof request));
            must(client_start(2, BREDONYCH_DELAY, 2, 0, call, sizeof call));
            break;
        case 'a': /* awaits */
            must(notifier_asks(notifier, sizeof notifier, request, sizeof request));
            must(notifier_start(0, notifier, sizeof notifier));
            break;
        }
        memcpy(state, kept, sizeof state);
    }
    return 0;
}
