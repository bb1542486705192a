/* A host with a clock: three channels of a mixer bring their gains up in steps, each at its own pace, by asking the clock to be woken.
 * Task 1 makes the clock, which makes its notifier, and then the channels. The host raises the tick's event whenever nobody runs; on a
 * board a timer does, every 10 ms. Every entry number is 0, which the clock gives its notifier too: this host tells its tasks apart by
 * their ids. The notifier alone waits for the tick, so that all of it is the same in either edition, of which -DEDITION=2 takes the second.
 * Compiled with -DRECORDS=1 it writes the requests that are made, as kernel-run reads them. */
#include <stdio.h>
#include <stdlib.h>
#include <string.h>
#include "bredonych.h"
#include "bredonych_clock.h"

#ifndef RECORDS
#define RECORDS 0
#endif
#ifndef EDITION
#define EDITION BREDONYCH_ONE_WAITS
#endif

enum { BOARD = 1, CLOCK = 2, NOTIFIER = 3, FIRST_CHANNEL = 4, CHANNELS = 3, TASKS = 7, TICK_EVENT = 0, CALL_AT = 0, NO_SUCH_TASK = 32 };

static uint8_t image[BREDONYCH_IMAGE], areas[BREDONYCH_AREAS];
static uint8_t request[BREDONYCH_REQUEST], answer[BREDONYCH_ANSWER];
static uint8_t clock_state[BREDONYCH_CLOCK_STATE], notifier_state[BREDONYCH_NOTIFIER_STATE];
static uint8_t calls[TASKS][BREDONYCH_CLIENT_STATE]; /* that of task g at g - 1 */
static int ticks;

/* A channel: its gain in tenths of a decibel, how much a step is, how many there are, and how many ticks lie between two. One of them
 * counts its ticks from the time at which it began, so that what it does in between makes it no later. */
struct channel {
    const char *name;
    int gain, step, steps, period;
    int by_count;
    uint32_t began;
};
static struct channel channels[CHANNELS] = {
    {"left", -240, 60, 2, 2, 0, 0}, {"right", -300, 100, 1, 3, 0, 0}, {"sub", -200, 100, 2, 2, 1, 0}};

static uint32_t word_at(const uint8_t *b)
{
    return b[0] | (uint32_t)b[1] << 8 | (uint32_t)b[2] << 16 | (uint32_t)b[3] << 24;
}

static void put_word(uint8_t *b, uint32_t x)
{
    for (int i = 0; i < 4; i++)
        b[i] = (uint8_t)(x >> (8 * i) & 255u);
}

static void must(const char *what, uint32_t verdict)
{
    if (verdict != BREDONYCH_ACCEPTED) {
        printf("%s: refused by %u\n", what, (unsigned)verdict);
        exit(1);
    }
}

/* The request of a task that is no machine, or of the hardware. */
static void ask(uint32_t kind, uint32_t arg0, uint32_t arg1)
{
    memset(request, 0, sizeof request);
    put_word(request, kind);
    put_word(request + 4, arg0);
    put_word(request + 8, arg1);
}

static uint8_t *area_of(uint32_t task) { return areas + (task - 1) * BREDONYCH_AREA; }

/* The active task calls the clock, or whom it takes for it. Its requests are the call's until that is over. */
static void call(uint32_t task, uint32_t clock, uint32_t op, uint32_t argument)
{
    must("a call", client_start(clock, op, argument, CALL_AT, calls[task - 1], BREDONYCH_CLIENT_STATE));
    must("a call asks", client_asks(calls[task - 1], BREDONYCH_CLIENT_STATE, request, sizeof request));
}

/* Whether the task's call makes the next request, which it does until it is over. */
static int calling(uint32_t task) { return client_asks(calls[task - 1], BREDONYCH_CLIENT_STATE, request, sizeof request) == BREDONYCH_ACCEPTED; }

/* What came of a task's call: a count is a count, and nothing else is. */
static int counted(uint32_t task, uint32_t *value)
{
    uint8_t outcome[BREDONYCH_CLOCK_OUTCOME];
    must("an outcome", client_outcome(calls[task - 1], BREDONYCH_CLIENT_STATE, outcome, sizeof outcome));
    *value = word_at(outcome + 4);
    return (int)word_at(outcome);
}

static void say(const char *who, const char *what, int number)
{
    if (!RECORDS)
        printf("tick %d: %s %s %d\n", ticks, who, what, number);
}

/* A channel's step, where its last call is over; then the next call, or it is done and exits. */
static void channel_asks(uint32_t task)
{
    static int stage[CHANNELS]; /* 0 not begun, 1 asks the time, 2 ramps */
    int i = (int)task - FIRST_CHANNEL;
    struct channel *c = &channels[i];
    uint32_t value = 0;

    if (stage[i] > 0 && counted(task, &value) != BREDONYCH_CALL_COUNT)
        exit(1);
    if (stage[i] == 1)
        c->began = value;
    if (stage[i] == 2) {
        c->gain += c->step;
        c->steps--;
        say(c->name, "comes to a gain of", c->gain);
    }
    stage[i] = stage[i] == 0 && c->by_count ? 1 : 2;
    if (stage[i] == 1)
        call(task, CLOCK, BREDONYCH_TIME, 0);
    else if (c->steps == 0)
        ask(BREDONYCH_EXIT, 0, 0);
    else if (c->by_count)
        call(task, CLOCK, BREDONYCH_DELAY_UNTIL, c->began += (uint32_t)c->period);
    else
        call(task, CLOCK, BREDONYCH_DELAY, (uint32_t)c->period);
}

/* Task 1: makes the clock and the channels; then shows what is no count, and exits. */
static void board_asks(void)
{
    static int stage;
    uint32_t value = 0;
    switch (stage++) {
    case 0: ask(BREDONYCH_CREATE, 2, 0); break;
    case 1: case 2: case 3: ask(BREDONYCH_CREATE, 8, 0); break;
    case 4: call(BOARD, CLOCK, BREDONYCH_DELAY, (uint32_t)-1); break;
    case 5:
        if (counted(BOARD, &value) == BREDONYCH_CALL_REFUSED)
            say("board", "asked for a delay of -1 and is refused by", (int)value);
        call(BOARD, NO_SUCH_TASK, BREDONYCH_TIME, 0);
        break;
    default:
        if (counted(BOARD, &value) == BREDONYCH_CALL_FAULT)
            say("board", "asked a task that there is not: fault", (int)value);
        ask(BREDONYCH_EXIT, 0, 0);
    }
}

/* The request of the active task. */
static void task_asks(uint32_t task)
{
    if (task == CLOCK)
        must("the clock asks", clock_asks(clock_state, sizeof clock_state, request, sizeof request));
    else if (task == NOTIFIER)
        must("the notifier asks", notifier_asks(notifier_state, sizeof notifier_state, request, sizeof request));
    else if (!calling(task)) {
        if (task == BOARD)
            board_asks();
        else
            channel_asks(task);
    }
}

/* What the task is told that runs next. */
static void task_told(uint32_t task)
{
    const uint8_t *area = area_of(task);
    if (task == CLOCK)
        must("the clock", clock_told(clock_state, sizeof clock_state, answer, sizeof answer, area, BREDONYCH_AREA));
    else if (task == NOTIFIER)
        must("the notifier", notifier_told(notifier_state, sizeof notifier_state, answer, sizeof answer, area, BREDONYCH_AREA));
    else
        client_told(calls[task - 1], BREDONYCH_CLIENT_STATE, answer, sizeof answer, area, BREDONYCH_AREA);
}

/* Whether every channel has exited. */
static int done(void)
{
    int exited = 0;
    for (int i = 0; i < CHANNELS; i++)
        exited += image[(FIRST_CHANNEL - 1 + i) * BREDONYCH_RECORD] == 7;
    return exited == CHANNELS;
}

int main(void)
{
    must("the kernel", kernel_start(EDITION, 16, 0, image, sizeof image));
    must("the clock", clock_start(1, clock_state, sizeof clock_state));
    must("the notifier", notifier_start(TICK_EVENT, notifier_state, sizeof notifier_state));
    uint32_t active = BOARD;
    while (active != 0 || !done()) {
        if (active != 0)
            task_asks(active);
        else {
            ticks++;
            ask(BREDONYCH_EVENT, TICK_EVENT, 0);
        }
        must("a step", kernel_step(EDITION, image, sizeof image, areas, sizeof areas, request, sizeof request, answer, sizeof answer));
        if (RECORDS)
            fwrite(request, 1, sizeof request, stdout);
        active = word_at(answer + 4);
        if (active != 0)
            task_told(active);
    }
    return 0;
}
