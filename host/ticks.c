/* A unit in which two tasks follow one timer: a meter, which measures at every tick, and a fader, which moves a step. It begins in
 * edition 1, where one task may wait for an event: the meter has the tick, and the fader is told that it is taken. So the host goes over
 * to edition 2, with the image that there is. Now both wait, each at a place of its own. A tick wakes both, who came first before the
 * other, and tells both the same number; then the mixer goes on, which the tick interrupted.
 *
 * No image tells its edition, so that this host stores it beside the image. It knows its tasks by their ids. */
#include <stdio.h>
#include <stdlib.h>
#include <string.h>
#include "bredonych.h"

enum { MIXER = 1, METER = 2, FADER = 3, TICK = 5, PLACE = 3, LOST = -1 };

static const char *const name[] = {[MIXER] = "mixer", [METER] = "meter", [FADER] = "fader"};

/* What the unit stores. */
struct unit {
    uint32_t edition;
    uint8_t image[BREDONYCH_IMAGE];
};
static struct unit unit = {BREDONYCH_ONE_WAITS, {0}};
static uint8_t areas[BREDONYCH_AREAS];

/* What a task is told as it becomes active. */
struct told {
    uint32_t next, kind;
    int32_t word;
};

static uint32_t word_at(const uint8_t *b)
{
    return b[0] | (uint32_t)b[1] << 8 | (uint32_t)b[2] << 16 | (uint32_t)b[3] << 24;
}

/* One step of a unit, in the edition that it says: the verdict, and what is told. */
static uint32_t step(struct unit *on, int32_t kind, int32_t a, int32_t b, struct told *told)
{
    const int32_t words[6] = {kind, a, b};
    uint8_t record[BREDONYCH_REQUEST], answer[BREDONYCH_ANSWER];
    for (int i = 0; i < BREDONYCH_REQUEST; i++)
        record[i] = (uint8_t)((uint32_t)words[i / 4] >> (8 * (i % 4)) & 255u);
    uint32_t verdict =
        kernel_step(on->edition, on->image, sizeof on->image, areas, sizeof areas, record, sizeof record, answer, sizeof answer);
    *told = (struct told){word_at(answer + 4), word_at(answer + 8), (int32_t)word_at(answer + 12)};
    return verdict;
}

static struct told ask(int32_t kind, int32_t a, int32_t b)
{
    struct told told;
    uint32_t verdict = step(&unit, kind, a, b, &told);
    if (verdict != BREDONYCH_ACCEPTED) {
        printf("refused by %u\n", (unsigned)verdict);
        exit(1);
    }
    return told;
}

/* What a task makes of what it is told: a number is a tick's only if it is a value. */
static void heard(struct told told)
{
    if (told.kind == BREDONYCH_VALUE)
        printf("%s: tick %d\n", name[told.next], (int)told.word);
    else if (told.kind == BREDONYCH_FAULT)
        printf("%s: fault %d, a tick that has no number\n", name[told.next], (int)told.word);
}

/* Waits for the tick. Where the task runs on it does not wait, and is told why. */
static struct told awaits(uint32_t tid)
{
    struct told told = ask(BREDONYCH_AWAIT_EVENT, TICK, 0);
    if (told.next != tid)
        printf("%s: waits for the tick, at place %u\n", name[tid], (unsigned)unit.image[(tid - 1) * BREDONYCH_RECORD + PLACE]);
    return told;
}

/* The meter: once it takes so long that the fader waits for the next tick before it does. */
static struct told meter(struct told told)
{
    static int stage;
    switch (stage++) {
    case 1:
        heard(told);
        printf("meter: measures for long, and lets the fader go first\n");
        return ask(BREDONYCH_YIELD, 0, 0);
    case 2: break; /* told the value of its Yield, which is no tick */
    default: heard(told);
    }
    return awaits(METER);
}

static struct told fader(struct told told)
{
    if (told.kind == BREDONYCH_FAULT && told.word == BREDONYCH_AWAIT_EVENT_TAKEN) {
        printf("fader: fault %d, the tick has its waiter\n", (int)told.word);
        unit.edition = BREDONYCH_MANY_WAIT;
        printf("the unit goes over to edition %u, with the image that it has\n", (unsigned)unit.edition);
    } else {
        heard(told);
    }
    return awaits(FADER);
}

/* The unit's image with an edition that is not its own: a step is refused, and leaves every byte. */
static void refused(uint32_t edition, uint32_t due)
{
    struct unit other = unit;
    struct told told;
    other.edition = edition;
    uint32_t verdict = step(&other, BREDONYCH_EVENT, TICK, 0, &told);
    int kept = memcmp(other.image, unit.image, sizeof unit.image) == 0;
    printf("  its image with edition %u: refused by %u%s\n", (unsigned)edition, (unsigned)verdict, kept ? "" : ", and CHANGED");
    if (verdict != due || !kept)
        exit(1);
}

/* The mixer: makes the others, and is interrupted by ticks as it mixes. */
static struct told mixer(void)
{
    static int stage;
    const int32_t ticks[] = {100, 101, LOST};
    if (stage < 2) {
        printf("mixer: makes the %s\n", name[METER + stage++]);
        return ask(BREDONYCH_CREATE, 8, 0);
    }
    if (stage == 3) {
        printf("the unit stores edition %u and %u bytes\n", (unsigned)unit.edition, (unsigned)sizeof unit.image);
        refused(BREDONYCH_ONE_WAITS, BREDONYCH_BAD_TABLE);
        refused(257, BREDONYCH_BAD_EDITION);
    }
    if (stage == 5)
        exit(0);
    printf("mixer: mixes, and is interrupted by a tick\n");
    return ask(BREDONYCH_EVENT, TICK, ticks[stage++ - 2]);
}

int main(void)
{
    if (kernel_start(unit.edition, 16, 0, unit.image, sizeof unit.image) != BREDONYCH_ACCEPTED)
        return 1;
    printf("the unit starts in edition %u\n", (unsigned)unit.edition);
    struct told told = {MIXER, BREDONYCH_NOTHING, 0};
    while (told.next != 0)
        told = told.next == METER ? meter(told) : told.next == FADER ? fader(told) : mixer();
    return 1;
}
