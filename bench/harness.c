/* Steps a workload through one program and writes the bytes that it gave, or times all programs in one run.
 *
 * harness PROGRAM COUNT WORKLOAD     the first COUNT requests (0: all); writes the answers, the areas and the image at the end
 * harness time REPEATS WORKLOAD      the least time of each, of REPEATS turns, as a ratio to the least of the step beside it
 *
 * PROGRAM is one of the table below. `none` does nothing: what it takes is the harness's own and is subtracted. */
#define _POSIX_C_SOURCE 199309L
#include <stdio.h>
#include <stdlib.h>
#include <string.h>
#include <time.h>

#include "bredonych.h"
#include "kernel.h"
#include "plain.h"

enum { MOST = 1 << 16, EDITION = BREDONYCH_ONE_WAITS, PRIORITY = 16, FIRST_ENTRY = 0 }; /* as step_bench starts */

static uint8_t image[IMAGE_BYTES], areas[AREAS_BYTES];
static uint8_t workload[MOST * RECORD_BYTES], answers[MOST * ANSWER_BYTES];
static size_t count;

/* ---- the programs */

static void none_start(void) {}
static void none_step(const uint8_t *record, uint8_t *answer) { (void)record, (void)answer; }
static void image_is_there(void) {}

#ifdef ENTRY
static void entry_start(void) { kernel_start(EDITION, PRIORITY, FIRST_ENTRY, image, sizeof image); }

static void entry_step(const uint8_t *record, uint8_t *answer)
{
    kernel_step(EDITION, image, sizeof image, areas, sizeof areas, record, RECORD_BYTES, answer, ANSWER_BYTES);
}
#endif

static void peer_entry_start(void) { peer_start(EDITION, PRIORITY, FIRST_ENTRY, image, sizeof image); }

static void peer_entry_step(const uint8_t *record, uint8_t *answer)
{
    peer_step(EDITION, image, sizeof image, areas, sizeof areas, record, RECORD_BYTES, answer, ANSWER_BYTES);
}

/* In memory a host has requests and answers as they are: those of the plain step are laid out like the records, on a
 * little-endian machine. */
_Static_assert(sizeof(struct plain_answer) == ANSWER_BYTES && sizeof(struct plain_answer) == BREDONYCH_ANSWER, "all answers have one length");

static void plain_first(void) { plain_start(PRIORITY, FIRST_ENTRY); }

static void plain_one(const uint8_t *record, uint8_t *answer)
{
    struct plain_request q;
    memcpy(&q, record, sizeof q);
    struct plain_answer a = plain_step(&q, areas);
    memcpy(answer, &a, sizeof a);
}

static void plain_last(void) { plain_image(image); }

static struct table table;

static void memory_start(void) { table_start(&table, EDITION, PRIORITY, FIRST_ENTRY); }

static void memory_step(const uint8_t *record, uint8_t *answer)
{
    struct request q;
    memcpy(&q, record, sizeof q);
    struct answer a = table_step(&table, areas, &q);
    const uint32_t words[] = {a.verdict, a.next, a.result.kind, (uint32_t)a.result.number, a.result.from, a.result.cut};
    memcpy(answer, words, sizeof words); /* not the answer itself, in which bytes without a meaning may stand behind a mark of one byte */
}

static void memory_image(void) { table_write(&table, image); }

static const struct program {
    const char *name;
    void (*start)(void);
    void (*step)(const uint8_t *record, uint8_t *answer);
    void (*image)(void);
} programs[] = {
    {"none", none_start, none_step, image_is_there},
#ifdef ENTRY
    {"entry", entry_start, entry_step, image_is_there},
#endif
    {"peer-entry", peer_entry_start, peer_entry_step, image_is_there},
    {"peer-memory", memory_start, memory_step, memory_image},
    {"plain-memory", plain_first, plain_one, plain_last},
};

enum { PROGRAMS = sizeof programs / sizeof programs[0] };

/* ---- running them */

static void run(const struct program *p, size_t steps)
{
    memset(areas, 0, sizeof areas);
    p->start();
    for (size_t i = 0; i < steps; i++)
        p->step(workload + i * RECORD_BYTES, answers + i * ANSWER_BYTES);
    p->image();
}

static double seconds(void)
{
    struct timespec now;
    clock_gettime(CLOCK_MONOTONIC, &now);
    return (double)now.tv_sec + 1e-9 * (double)now.tv_nsec;
}

/* In turns, so that what else the machine does is shared; the least is what a program needs. */
static void time_all(unsigned long repeats)
{
    double least[PROGRAMS];
    for (unsigned long turn = 0; turn < repeats; turn++) {
        for (int i = 0; i < PROGRAMS; i++) {
            double began = seconds();
            run(&programs[i], count);
            double took = seconds() - began;
            if (turn == 0 || took < least[i])
                least[i] = took;
        }
    }
    for (int i = 1; i < PROGRAMS; i++)
        printf("%s %.0f\n", programs[i].name, (least[i] - least[0]) * 1e9 / (double)count);
}

static int usage(void)
{
    fputs("usage: harness PROGRAM COUNT WORKLOAD\n       harness time REPEATS WORKLOAD\nprograms:", stderr);
    for (int i = 0; i < PROGRAMS; i++)
        fprintf(stderr, " %s", programs[i].name);
    fputs("\n", stderr);
    return 2;
}

int main(int argc, char **argv)
{
    if (argc != 4)
        return usage();
    unsigned long number = strtoul(argv[2], NULL, 10);
    FILE *in = fopen(argv[3], "rb");
    if (!in) {
        perror(argv[3]);
        return 2;
    }
    count = fread(workload, RECORD_BYTES, MOST, in);
    fclose(in);
    if (strcmp(argv[1], "time") == 0) {
        time_all(number);
        return 0;
    }
    for (int i = 0; i < PROGRAMS; i++) {
        if (strcmp(argv[1], programs[i].name) != 0)
            continue;
        size_t steps = number > 0 && number < count ? number : count;
        run(&programs[i], steps);
        fwrite(answers, ANSWER_BYTES, steps, stdout);
        fwrite(areas, 1, sizeof areas, stdout);
        fwrite(image, 1, sizeof image, stdout);
        return fflush(stdout) == 0 ? 0 : 1;
    }
    return usage();
}
