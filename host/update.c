/* A unit that is updated. What it stored has the old form, 640 bytes without entry numbers, and a meter task waits in it; the new host
 * takes the new form alone. So the image is converted, once, and the run goes on where it stood: the tasks of then have entry number 0,
 * and a new one is given a number. What was stored before there were editions is of the first one. Then what is refused, and that a
 * refusal leaves the buffer that was to be written as it is. */
#include <stdio.h>
#include <stdlib.h>
#include <string.h>
#include "bredonych.h"

enum { PANEL = 1, METER = 2, LOGGER = 3, LOGGER_CODE = 7, UNTOUCHED = 0xa5, EDITION = BREDONYCH_ONE_WAITS };

static uint8_t stored[BREDONYCH_OLD_IMAGE], image[BREDONYCH_IMAGE], areas[BREDONYCH_AREAS];

static uint32_t word_at(const uint8_t *b)
{
    return b[0] | (uint32_t)b[1] << 8 | (uint32_t)b[2] << 16 | (uint32_t)b[3] << 24;
}

static void must(const char *what, uint32_t verdict)
{
    if (verdict != BREDONYCH_ACCEPTED) {
        printf("%s: refused by %u\n", what, (unsigned)verdict);
        exit(1);
    }
}

/* One step of the active task, on an image of so many bytes: the verdict, and what is shown. */
static uint32_t step(uint8_t *on, uint64_t length, const int32_t words[6], uint8_t answer[BREDONYCH_ANSWER])
{
    uint8_t record[BREDONYCH_REQUEST];
    for (int i = 0; i < BREDONYCH_REQUEST; i++)
        record[i] = (uint8_t)((uint32_t)words[i / 4] >> (8 * (i % 4)) & 255u);
    return kernel_step(EDITION, on, length, areas, sizeof areas, record, sizeof record, answer, BREDONYCH_ANSWER);
}

/* A step that has to go well, said. */
static void goes(const char *what, int32_t kind, int32_t a, int32_t b, int32_t c, int32_t d, int32_t e)
{
    uint8_t answer[BREDONYCH_ANSWER];
    must(what, step(image, sizeof image, (const int32_t[]){kind, a, b, c, d, e}, answer));
    printf("%s; task %u runs next", what, (unsigned)word_at(answer + 4));
    if (word_at(answer + 8) == BREDONYCH_VALUE)
        printf(", and is told %u", (unsigned)word_at(answer + 12));
    printf("\n");
}

static void entry_of(const char *name, uint32_t tid)
{
    const uint8_t *record = image + (tid - 1) * BREDONYCH_RECORD;
    printf("  %s, task %u: entry number %u\n", name, (unsigned)tid, (unsigned)word_at(record + BREDONYCH_ENTRY));
}

/* A conversion that has to be refused, and to leave every byte of its buffer. */
static void refused(const char *what, uint32_t edition, const uint8_t *from, uint64_t from_length, uint64_t to_length, uint32_t due)
{
    uint8_t out[BREDONYCH_IMAGE];
    memset(out, UNTOUCHED, sizeof out);
    uint32_t verdict = kernel_convert(edition, from, from_length, out, to_length);
    int kept = 1;
    for (size_t i = 0; i < sizeof out; i++)
        kept = kept && out[i] == UNTOUCHED;
    printf("%s: refused by %u, %s\n", what, (unsigned)verdict, kept ? "and nothing is written" : "and bytes are WRITTEN");
    if (verdict != due || !kept)
        exit(1);
}

/* The unit as it was: a panel has made a meter, which waits for a question. No task has an entry number, so that the image can be stored
 * in the old form, as the host of then had it. */
static void before(void)
{
    must("the start", kernel_start(EDITION, 16, 0, image, sizeof image));
    goes("the panel makes a meter", BREDONYCH_CREATE, 8, 0, 0, 0, 0);
    goes("the meter waits for a question", BREDONYCH_RECEIVE, 0, 4, 0, 0, 0);
    must("to store it", kernel_convert(EDITION, image, sizeof image, stored, sizeof stored));
    printf("the unit stores %u bytes and is updated\n", (unsigned)sizeof stored);
    memset(image, UNTOUCHED, sizeof image);
}

static void after(void)
{
    uint8_t answer[BREDONYCH_ANSWER];
    uint32_t verdict = step(stored, sizeof stored, (const int32_t[6]){BREDONYCH_MY_TID}, answer);
    printf("a step of the old form: refused by %u\n", (unsigned)verdict);
    must("to convert it", kernel_convert(EDITION, stored, sizeof stored, image, sizeof image));
    printf("converted to %u bytes\n", (unsigned)sizeof image);
    entry_of("the panel", PANEL);
    entry_of("the meter", METER);
    goes("the panel asks the meter", BREDONYCH_SEND, METER, 0, 1, 8, 1);
    goes("the meter makes a logger, with entry number 7", BREDONYCH_CREATE, 4, LOGGER_CODE, 0, 0, 0);
    entry_of("the logger", LOGGER);
}

static void refusals(void)
{
    uint8_t damaged[BREDONYCH_OLD_IMAGE];
    memcpy(damaged, stored, sizeof damaged);
    damaged[1] = BREDONYCH_PRIORITIES; /* the panel's priority */
    refused("edition 3, of an image of 639 bytes", 3, stored, sizeof stored - 1, sizeof image, BREDONYCH_BAD_EDITION);
    refused("an image of 639 bytes", EDITION, stored, sizeof stored - 1, sizeof image, BREDONYCH_BAD_IMAGE);
    refused("a buffer of 767 bytes", EDITION, stored, sizeof stored, sizeof image - 1, BREDONYCH_BAD_IMAGE);
    refused("an image in which the panel has priority 32", EDITION, damaged, sizeof damaged, sizeof image, BREDONYCH_BAD_TABLE);
    refused("the way back, with a logger", EDITION, image, sizeof image, sizeof stored, BREDONYCH_ENTRY_LOST);
    goes("the logger exits", BREDONYCH_EXIT, 0, 0, 0, 0, 0);
    refused("the way back, with a logger that has exited", EDITION, image, sizeof image, sizeof stored, BREDONYCH_ENTRY_LOST);
}

int main(void)
{
    before();
    after();
    refusals();
    return 0;
}
