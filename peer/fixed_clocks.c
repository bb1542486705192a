/* A fixed list of histories of clocks, at their borders. */
#include "generate.h"

#define COUNT(list) (sizeof(list) / sizeof(list)[0])
#define HALF (UINT32_C(1) << 31)

enum { EIGHT = CLOCK_MESSAGE_BYTES };


static void say(uint32_t tid, uint32_t op, uint32_t argument)
{
    clock_words(tid, EIGHT, op, argument);
}

static void fresh(uint32_t notifier, uint32_t count)
{
    clock_words(0, notifier, count, 0);
}

static void ticks(uint32_t notifier, int number)
{
    for (int i = 0; i < number; i++)
        say(notifier, OP_TICK, 0);
}

/* Nobody can tick such a clock, whether or not it came from a record. */
static void no_notifier(void)
{
    say(1, OP_TIME, 0);
    say(1, OP_TICK, 0);
    say(255, OP_TICK, 0);
    say(5, OP_DELAY, 0);
    say(5, OP_DELAY_UNTIL, 0);
    say(5, OP_DELAY_UNTIL, UINT32_MAX);
    say(5, OP_DELAY, 3);
    say(6, OP_DELAY_UNTIL, HALF);
    say(6, OP_DELAY_UNTIL, 1);
    say(5, OP_TIME, 0);
}

/* Time after each shows whether the count was moved all the same. */
static void lengths(void)
{
    static const uint32_t length[] = {0, 1, 4, 7, 9, 10, 12, 15, 16, 255, 256,
                                      EIGHT + 256, EIGHT + 65536, HALF + EIGHT,
                                      UINT32_MAX};
    fresh(2, 100);
    for (unsigned i = 0; i < COUNT(length); i++) {
        clock_words(2, length[i], OP_TICK, 0);
        clock_words(3, length[i], OP_TIME, 0);
        clock_words(3, length[i], OP_DELAY, 0);
        clock_words(3, length[i], OP_DELAY, 2);
        clock_words(3, length[i], OP_DELAY, UINT32_MAX);
        clock_words(3, length[i], OP_DELAY_UNTIL, 100);
        clock_words(3, length[i], OP_DELAY_UNTIL, 101);
        clock_words(3, length[i], 0, 0);
        say(3, OP_TIME, 0);
    }
    ticks(2, 3);
}

/* Each bit above the three that an op needs, and each of an argument that
 * has to be 0; both from the notifier and from another. */
static void forms(void)
{
    fresh(2, 7);
    for (uint32_t op = 0; op <= 8; op++)
        if (op < OP_TICK || op > OP_DELAY_UNTIL)
            say(2, op, 0);
    for (int bit = 3; bit < 32; bit++)
        for (uint32_t op = OP_TICK; op <= OP_DELAY_UNTIL; op++)
            say(2, op | 1u << bit, 0);
    for (int bit = 0; bit < 32; bit++) {
        say(2, OP_TICK, 1u << bit);
        say(3, OP_TICK, 1u << bit);
        say(2, OP_TIME, 1u << bit);
        say(3, OP_TIME, 1u << bit);
    }
    say(2, OP_TIME, 0);
    ticks(2, 1);
}

static void notifiers(void)
{
    fresh(2, 7);
    for (uint32_t tid = 1; tid <= TASKS; tid++)
        if (tid != 2)
            say(tid, OP_TICK, 0);
    for (int bit = 2; bit < 8; bit++)
        say(2 | 1u << bit, OP_TICK, 0);
    say(4, OP_TIME, 0);
    say(3, OP_DELAY, 1);
    say(3, OP_TICK, 0);          /* who sleeps cannot wake itself */
    ticks(2, 1);
    fresh(128 | 2, 7);
    ticks(2, 1);
    ticks(128 | 2, 2);
}

/* Short delays of both sorts about each place where a count may be misread;
 * who arrives later has the lower tid. */
static void wraps(void)
{
    static const uint32_t start[] = {0, 1, HALF - 3, HALF, UINT32_MAX - 3,
                                     UINT32_MAX - 1, UINT32_MAX, 255, 65535};
    for (unsigned i = 0; i < COUNT(start); i++) {
        fresh(9, start[i]);
        for (uint32_t d = 0; d <= 6; d++) {
            say(32 - d, OP_DELAY, d);
            say(16 - d, OP_DELAY_UNTIL, start[i] + 6 - d);
            say(25 - d, OP_DELAY_UNTIL, start[i] - d);
        }
        for (int n = 0; n < 8; n++) {
            ticks(9, 1);
            say(1, OP_TIME, 0);
        }
    }
}

/* Targets at both ends of the half that is ahead, and of that behind. */
static void targets(void)
{
    static const uint32_t start[] = {0, 1, 12345, HALF - 1, HALF,
                                     UINT32_MAX - 1, UINT32_MAX};
    static const uint32_t ahead[] = {0, UINT32_MAX, UINT32_MAX - 1, HALF + 1,
                                     HALF + 2, 1, 2, HALF, HALF - 1, HALF - 2};
    for (unsigned i = 0; i < COUNT(start); i++) {
        fresh(1, start[i]);
        for (unsigned j = 0; j < COUNT(ahead); j++)
            say(30 - j, OP_DELAY_UNTIL, start[i] + ahead[j]);
        say(2, OP_DELAY, INT32_MAX);
        say(3, OP_DELAY, INT32_MAX - 1);
        say(4, OP_DELAY, UINT32_MAX);
        say(4, OP_DELAY, HALF);
        say(4, OP_DELAY, HALF + 1);
        ticks(1, 4);
    }
}

/* What a clock with no free place, or with one, does with each message. */
static void each_message(uint32_t awake, uint32_t sleeper, uint32_t count)
{
    const uint32_t tid[] = {awake, sleeper};
    for (int i = 0; i < 2; i++) {
        say(tid[i], OP_TIME, 0);
        say(tid[i], OP_DELAY, 0);
        say(tid[i], OP_DELAY, UINT32_MAX);
        say(tid[i], OP_DELAY, HALF);
        say(tid[i], OP_DELAY_UNTIL, count);
        say(tid[i], OP_DELAY_UNTIL, count - 1);
        say(tid[i], OP_DELAY_UNTIL, count - INT32_MAX);
        say(tid[i], OP_TICK, 0);
        say(tid[i], OP_TICK, 1);
        clock_words(tid[i], 7, OP_DELAY, 1);
        clock_words(tid[i], 9, OP_DELAY, UINT32_MAX);
    }
    say(sleeper, OP_DELAY, 1);
    say(sleeper, OP_DELAY_UNTIL, count + 1);
}

/* Filled twice: the second time with one new sleeper for each woken. */
static void full(uint32_t count)
{
    fresh(1, count);
    for (uint32_t i = 0; i < CLOCK_PLACES; i++)
        say(32 - i, OP_DELAY, i < 12 ? 3 + i % 4 : 3);
    each_message(2, 20, count);
    say(2, OP_DELAY, 1);
    say(3, OP_DELAY_UNTIL, count + 1);
    say(4, OP_DELAY_UNTIL, count + HALF);
    ticks(1, 3);
    for (uint32_t tid = 2; tid <= 10; tid++)
        say(tid, tid % 2 ? OP_DELAY : OP_DELAY_UNTIL,
            tid % 2 ? 3 : count + 6);
    each_message(11, 2, count + 3);
    ticks(1, 6);
    say(11, OP_DELAY, 1);
    ticks(1, 1);
}

/* Later sleepers stand in earlier places, and all are due together. */
static void order(void)
{
    fresh(1, UINT32_MAX - 2);
    say(8, OP_DELAY, 1);
    say(3, OP_DELAY, 6);
    say(7, OP_DELAY, 2);
    say(5, OP_DELAY_UNTIL, 3);
    ticks(1, 1);
    say(9, OP_DELAY_UNTIL, 3);
    ticks(1, 1);
    say(2, OP_DELAY, 4);
    say(8, OP_DELAY_UNTIL, 3);
    say(4, OP_DELAY, 4);
    ticks(1, 5);
}

/* All 16 at one tick, three times, in orders that are not those of tids. */
static void all_at_once(void)
{
    fresh(1, UINT32_MAX - 8);
    for (uint32_t round = 0; round < 3; round++) {
        for (uint32_t i = 0; i < CLOCK_PLACES; i++)
            say(2 + (i * 7 + round * 5) % 29, OP_DELAY, 3);
        say(32, OP_DELAY, 3);
        ticks(1, 4);
    }
}

/* A notifier that sleeps ticks on, and is woken by its own tick; a sleeper is
 * awake again once answered. */
static void sleepers(void)
{
    fresh(6, 50);
    say(6, OP_DELAY, 2);
    say(6, OP_TIME, 0);
    say(6, OP_DELAY, 1);
    say(9, OP_DELAY_UNTIL, 52);
    say(9, OP_DELAY_UNTIL, 52);
    each_message(10, 9, 50);
    ticks(6, 2);
    say(9, OP_DELAY, 0);
    say(9, OP_DELAY, 1);
    say(6, OP_DELAY_UNTIL, 53);
    ticks(6, 2);
}

/* Tids alike in their low bits are different sleepers. */
static void far_tids(void)
{
    fresh(1, 9);
    for (int bit = 3; bit < 8; bit++)
        say(5 | 1u << bit, OP_DELAY, 2);
    say(5, OP_DELAY_UNTIL, 11);
    say(5 | 1u << 4, OP_DELAY, 1);
    say(5 | 1u << 4, OP_TIME, 0);
    ticks(1, 3);
}

/* A new clock has all its places, and nobody in them. */
static void forgotten(void)
{
    fresh(1, 5);
    for (uint32_t tid = 2; tid <= 17; tid++)
        say(tid, OP_DELAY, 1);
    say(18, OP_DELAY, 1);
    fresh(4, 5);
    ticks(1, 1);
    ticks(4, 1);
    for (uint32_t tid = 17; tid >= 2; tid--)
        say(tid, OP_DELAY, 1);
    say(18, OP_DELAY, 1);
    fresh(4, 5);
    fresh(3, 8);
    ticks(3, 1);
}

int clocks_fixed(void)
{
    no_notifier();
    fresh(0, 0);
    no_notifier();
    lengths();
    forms();
    notifiers();
    wraps();
    targets();
    full(1000);
    full(UINT32_MAX - 4);
    full(HALF - 4);
    order();
    all_at_once();
    sleepers();
    far_tids();
    forgotten();
    return 0;
}
