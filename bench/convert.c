/* A conversion, for counting: convert FROM TO TASKS CALLS. FROM and TO are lengths of the two forms; every entry number is 0, and nobody
 * waits for an event, so that the editions are alike. */
#include <stdlib.h>
#include "bredonych.h"

enum { EDITION = BREDONYCH_ONE_WAITS, FIRST = 16, BELOW = 20 };

static uint8_t image[BREDONYCH_IMAGE], out[BREDONYCH_IMAGE], areas[BREDONYCH_AREAS];

static void must(uint32_t verdict)
{
    if (verdict != BREDONYCH_ACCEPTED)
        exit(1);
}

/* Task 1 makes so many, all below itself, so that it goes on; they stand in one ready queue. */
static void prepare(int tasks)
{
    must(kernel_start(EDITION, FIRST, 0, image, sizeof image));
    for (int i = 1; i < tasks; i++) {
        const uint8_t request[BREDONYCH_REQUEST] = {BREDONYCH_CREATE, 0, 0, 0, BELOW};
        uint8_t answer[BREDONYCH_ANSWER];
        must(kernel_step(EDITION, image, sizeof image, areas, sizeof areas, request, sizeof request, answer, sizeof answer));
    }
}

int main(int count, char **words)
{
    if (count != 5)
        return 2;
    uint64_t from = strtoul(words[1], NULL, 10), to = strtoul(words[2], NULL, 10);
    prepare(atoi(words[3]));
    must(kernel_convert(EDITION, image, sizeof image, out, from));
    for (uint64_t i = 0; i < from; i++)
        image[i] = out[i];
    for (int i = atoi(words[4]); i > 0; i--)
        must(kernel_convert(EDITION, image, from, out, to));
    return 0;
}
