/* The key of a picture: what its marks mean, and how a row is read. */
#include "timeline.h"

enum { CELL = 176, LINE = 20, LEFT = 12, TOP = 32, SAMPLE = 28 };

static const char *const names[] = {"", "active", "ready", "waits in Receive", "waits in Send", "waits for a reply", "waits for event 5", "exited"};

static const char *const lines[] = {
    "A row is a step: who asks, and for what (at 8 means from byte 8 of the asker's area on); who runs next, and",
    "what that task is told then: - nothing, v 6 the value 6, v 6 from 1 the same from task 1, e -1 the fault -1;",
    "cut: fewer bytes were delivered than were sent, for want of room;",
    "and the state of each task after the step. Whatever the number of steps, nothing is left out.",
    "An event wakes all tasks that wait for it, in the order in which they came; each is told the same, when it runs.",
    "A column is a task: its number, its priority, and its entry number, by which the host finds the code that it runs.",
};

enum { LINES = sizeof lines / sizeof lines[0] };

/* The place of the n-th entry, four in a line. */
static int x_of(int n)
{
    return LEFT + n % 4 * CELL;
}

static int y_of(int n)
{
    return TOP + n / 4 * LINE;
}

static void entry(int n, const char *text)
{
    label(x_of(n) + SAMPLE + 8, y_of(n) + 11, 11, "", text);
}

void key(void)
{
    label(LEFT, 20, 14, BOLD, "The tasks of a run, step by step");
    for (int s = ACTIVE; s <= EXITED; s++) {
        int n = s - ACTIVE, thin = s == EXITED ? 5 : 0;
        bar(x_of(n), y_of(n) + thin, SAMPLE, 14 - 2 * thin, (enum state)s);
        entry(n, names[s]);
    }
    of_event(x_of(EVENT_BLOCKED - ACTIVE) + SAMPLE / 2, y_of(EVENT_BLOCKED - ACTIVE) + 7, 5);
    box(x_of(7), y_of(7), SAMPLE, 14, IDLE);
    entry(7, "nobody runs");
    delivery(x_of(8), x_of(8) + SAMPLE, y_of(8) + 9, 4, 0);
    entry(8, "4 bytes delivered");
    delivery(x_of(9), x_of(9) + SAMPLE, y_of(9) + 9, 4, 1);
    entry(9, "4 bytes delivered, cut");
    event(x_of(10), x_of(10) + SAMPLE, y_of(10) + 7, 0);
    entry(10, "event, wakes the task");
    event(x_of(11), x_of(11) + SAMPLE, y_of(11) + 9, 2);
    entry(11, "event, wakes it second");
    lost(x_of(12) + 6, y_of(12) + 7);
    entry(12, "event, wakes nobody");
    bar(x_of(13) + 6, y_of(13) - 1, 16, 16, ACTIVE);
    dot(x_of(13) + 14, y_of(13) + 7);
    entry(13, "own write");
    mark(x_of(14) + 14, y_of(14) + 7, -1);
    entry(14, "told the fault -1");
    label(x_of(15), y_of(15) + 11, 11, MONO BOLD FILL(RED), "R4");
    entry(15, "refused: no change");
    for (int i = 0; i < LINES; i++)
        label(LEFT, 132 + 16 * i, 11, "", lines[i]);
}
