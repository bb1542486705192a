/* An entry that wakes a whole queue, for counting: exits exit|event NUMBER CALLS. So many tasks stand in the send queue of one that exits,
 * or wait for an event that happens. The image is put back before each call, so that all are alike; with CALLS negative that alone is
 * done, as often. */
#include <stdio.h>
#include <stdlib.h>
#include <string.h>
#include "bredonych.h"

enum { EDITION = BREDONYCH_MANY_WAIT, SERVER = 2, FIRST = 16, BELOW = 20, ABOVE = 8, TICK = 1 };

static uint8_t image[BREDONYCH_IMAGE], kept[BREDONYCH_IMAGE], areas[BREDONYCH_AREAS];

static void ask(uint8_t kind, uint8_t argument)
{
    const uint8_t request[BREDONYCH_REQUEST] = {kind, 0, 0, 0, argument};
    uint8_t answer[BREDONYCH_ANSWER];
    uint32_t verdict = kernel_step(EDITION, image, sizeof image, areas, sizeof areas, request, sizeof request, answer, sizeof answer);
    if (verdict != BREDONYCH_ACCEPTED) {
        printf("refused by %u\n", (unsigned)verdict);
        exit(1);
    }
}

/* Task 1 makes the server, below itself, so many senders or waiters, above, and as many tasks more as there are slots; each of them runs
 * at once and sends or waits. Then task 1 waits for another event, and so do the other tasks for a sender, so that the server is active. */
static void prepare(int exits, int number)
{
    if (kernel_start(EDITION, FIRST, 0, image, sizeof image) != BREDONYCH_ACCEPTED)
        exit(1);
    ask(BREDONYCH_CREATE, BELOW);
    for (int i = 0; i < BREDONYCH_TASKS - SERVER; i++) {
        ask(BREDONYCH_CREATE, (uint8_t)(ABOVE + i % 4));
        if (i >= number)
            ask(BREDONYCH_RECEIVE, 0);
        else if (exits)
            ask(BREDONYCH_SEND, SERVER);
        else
            ask(BREDONYCH_AWAIT_EVENT, TICK);
    }
    ask(BREDONYCH_AWAIT_EVENT, 0);
    memcpy(kept, image, sizeof kept);
}

int main(int count, char **words)
{
    if (count != 4)
        return 2;
    int exits = strcmp(words[1], "exit") == 0, calls = atoi(words[3]);
    prepare(exits, atoi(words[2]));
    for (int i = abs(calls); i > 0; i--) {
        memcpy(image, kept, sizeof image);
        if (calls > 0)
            ask(exits ? BREDONYCH_EXIT : BREDONYCH_EVENT, exits ? 0 : TICK);
    }
    return 0;
}
