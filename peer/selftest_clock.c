/* Cases of the clock, worked out by hand from request P1. */
#include "clock.h"
#include "selftest.h"

static struct clock watch;
static struct clock_answers given;

static void hear(uint32_t tid, uint32_t op, uint32_t argument)
{
    struct clock_message m = {tid, CLOCK_MESSAGE_BYTES, op, argument};
    clock_hear(&watch, &m, &given);
}

static bool gave(uint32_t i, uint32_t tid, int32_t status, uint32_t count)
{
    return i < given.number && given.answer[i].tid == tid &&
           given.answer[i].status == status && given.answer[i].count == count;
}

static void expect_one(uint32_t tid, uint32_t op, uint32_t argument,
                       int32_t status, uint32_t count, const char *what)
{
    hear(tid, op, argument);
    expect(given.number == 1 && gave(0, tid, status, count), what);
}

static void expect_none(uint32_t tid, uint32_t op, uint32_t argument,
                        const char *what)
{
    hear(tid, op, argument);
    expect(given.number == 0, what);
}

/* Tids 8, 3 and 5 sleep in this order, are due 2, 2 and 3 ticks on, and the
 * count goes from 2^32 - 2 to 1. */
static void clock_wraps(void)
{
    clock_start(&watch, 2, UINT32_MAX - 1);
    expect_one(4, OP_TIME, 0, 0, UINT32_MAX - 1, "Time");
    expect_one(8, OP_DELAY, 0, 0, UINT32_MAX - 1, "Delay of 0");
    expect_none(8, OP_DELAY, 2, "Delay of 2");
    expect_none(3, OP_DELAY_UNTIL, 0, "DelayUntil 0");
    expect_none(5, OP_DELAY, 3, "Delay of 3");
    expect_one(2, OP_TICK, 0, 0, UINT32_MAX, "first tick");
    hear(2, OP_TICK, 0);
    expect(given.number == 3 && gave(0, 2, 0, 0) && gave(1, 8, 0, 0) &&
           gave(2, 3, 0, 0), "tick to 0");
    expect_one(8, OP_DELAY_UNTIL, UINT32_MAX, 0, 0, "behind the wrap");
    hear(2, OP_TICK, 0);
    expect(given.number == 2 && gave(0, 2, 0, 1) && gave(1, 5, 0, 1),
           "tick to 1");
    expect_one(2, OP_TICK, 0, 0, 2, "nobody is left");
}

/* At count 10: 2^31 ahead is the farthest target, and one more is behind. */
static void clock_targets(void)
{
    clock_start(&watch, 2, 10);
    expect_one(3, OP_DELAY_UNTIL, 10, 0, 10, "target now");
    expect_one(3, OP_DELAY_UNTIL, 9, 0, 10, "target behind");
    expect_one(3, OP_DELAY_UNTIL, 0x8000000Bu, 0, 10, "2^31 - 1 behind");
    expect_none(3, OP_DELAY_UNTIL, 0x8000000Au, "2^31 ahead");
    expect_none(4, OP_DELAY_UNTIL, 0x80000009u, "2^31 - 1 ahead");
    expect_none(5, OP_DELAY, INT32_MAX, "longest Delay");
    expect_one(2, OP_TICK, 0, 0, 11, "none of them due");
}

static void clock_refuses(void)
{
    struct clock_message cut = {2, 7, OP_TICK, 0};
    clock_start(&watch, 2, 10);
    clock_hear(&watch, &cut, &given);
    expect(given.number == 1 && gave(0, 2, -4, 0), "seven bytes");
    expect_one(2, 0, 0, -4, 0, "op 0");
    expect_one(2, 5, 0, -4, 0, "op 5");
    expect_one(2, OP_TICK, 1, -4, 0, "tick with 1");
    expect_one(3, OP_TIME, 1, -4, 0, "Time with 1");
    expect_one(3, OP_TICK, 0, -4, 0, "tick from another");
    expect_one(3, OP_DELAY, UINT32_MAX, -2, 0, "Delay of -1");
    expect_none(3, OP_DELAY, 1, "Delay of 1");
    expect_one(3, OP_DELAY, 0, -4, 0, "0, asleep");
    expect_one(3, OP_DELAY, UINT32_MAX, -4, 0, "-4 before -2");
    expect_one(3, OP_DELAY_UNTIL, 10, -4, 0, "due, asleep");
    expect_one(3, OP_TIME, 0, 0, 10, "Time, asleep");
}

/* The tick frees the place of tid 3 alone. */
static void clock_fills(void)
{
    clock_start(&watch, 2, 10);
    for (uint32_t tid = 3; tid < 3 + 16; tid++)
        expect_none(tid, OP_DELAY, tid - 2, "16 places");
    expect_one(20, OP_DELAY, 1, -3, 0, "17th");
    expect_one(20, OP_DELAY_UNTIL, 11, -3, 0, "17th, DelayUntil");
    expect_one(20, OP_DELAY, UINT32_MAX, -2, 0, "-2 before -3");
    expect_one(3, OP_DELAY, 1, -4, 0, "-4 before -3");
    expect_one(20, OP_DELAY, 0, 0, 10, "full, 0");
    expect_one(20, OP_DELAY_UNTIL, 10, 0, 10, "full, due");
    hear(2, OP_TICK, 0);
    expect(given.number == 2 && gave(0, 2, 0, 11) && gave(1, 3, 0, 11),
           "one woken");
    expect_none(20, OP_DELAY, 1, "place used again");
    expect_one(21, OP_DELAY, 1, -3, 0, "full again");
    hear(2, OP_TICK, 0);
    expect(given.number == 3 && gave(0, 2, 0, 12) && gave(1, 4, 0, 12) &&
           gave(2, 20, 0, 12), "order of arrival");
}

void clock_cases(void)
{
    clock_wraps();
    clock_targets();
    clock_refuses();
    clock_fills();
}
