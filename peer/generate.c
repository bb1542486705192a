/* Writes request streams, byte-entry cases, starts, histories of clocks and
 * conversions to standard output. */
#include "images.h"

#include <stdio.h>
#include <stdlib.h>
#include <string.h>

static struct world world;

/* A seed and an index give streams that have nothing to do with each other. */
static uint64_t mix(uint64_t seed, uint64_t index)
{
    uint64_t s = seed;
    s = draw(&s) ^ index;
    return draw(&s);
}

void put_request(const struct request *q)
{
    uint8_t record[RECORD_BYTES];
    request_write(q, record);
    fwrite(record, 1, sizeof record, stdout);
}

static int requests(uint64_t seed, unsigned long steps)
{
    uint64_t s = seed;
    world_start(&world, seed, EDITION_SOLE + below(&s, 2), FIRST_PRIORITY, 0);
    for (unsigned long i = 0; i < steps; i++) {
        struct request q = world_live(&world);
        table_step(&world.table, world.areas, &q);
        put_request(&q);
    }
    return 0;
}

/* ---- streams that are worked out ---- */

struct table followed;
static uint8_t followed_areas[AREAS_BYTES];

void stream_start(uint32_t edition)
{
    memset(followed_areas, 0, sizeof followed_areas);
    table_start(&followed, edition, FIRST_PRIORITY, 0);
}

void step(int32_t kind, uint32_t a, uint32_t b, uint32_t c, uint32_t d,
          uint32_t e)
{
    struct request q = {kind, {(int32_t)a, (int32_t)b, (int32_t)c, (int32_t)d,
                               (int32_t)e}};
    table_step(&followed, followed_areas, &q);
    put_request(&q);
}

/* ---- cases ---- */

const uint32_t right_lengths[CHUNKS] = {IMAGE_BYTES, AREAS_BYTES,
                                        RECORD_BYTES, ANSWER_BYTES};

uint32_t given_edition = EDITION_SOLE;

void put_word(uint32_t word)
{
    uint8_t b[4];
    put32(b, word);
    fwrite(b, 1, sizeof b, stdout);
}

void put_chunk(const struct chunk *c)
{
    put_word(c->length);
    fwrite(c->bytes, 1, c->length, stdout);
}

void garbage(uint64_t *s, uint8_t *to, uint32_t length)
{
    for (uint32_t i = 0; i < length; i += 8) {
        uint64_t r = draw(s);
        for (uint32_t j = i; j < i + 8 && j < length; j++, r >>= 8)
            to[j] = (uint8_t)r;
    }
}

/* One run for each edition. */
void runs_start(struct world *runs, uint64_t *s, bool entries)
{
    for (uint32_t edition = EDITION_SOLE; edition <= EDITION_CROWD; edition++) {
        uint64_t seed = draw(s);
        uint32_t entry = some_entry(s);
        world_start(&runs[edition - EDITION_SOLE], seed, edition,
                    FIRST_PRIORITY, entries ? entry : 0);
    }
}

/* An image from the middle of a run, or one no run need lead to. */
void base_image(struct world *runs, uint64_t *s, uint32_t edition,
                uint8_t *image)
{
    struct world *run = &runs[edition - EDITION_SOLE];
    uint32_t priority = below(s, PRIORITIES);
    if (chance(s, 50)) {
        image_invent(s, edition, image);
        return;
    }
    if (world_dead(&run->table) || chance(s, 1)) {
        uint64_t seed = draw(s);
        world_start(run, seed, edition, priority, some_entry(s));
    }
    for (uint32_t i = 1 + below(s, 6); i > 0; i--) {
        struct request q = world_live(run);
        table_step(&run->table, run->areas, &q);
    }
    table_write(&run->table, image);
}

static void wrong_length(uint64_t *s, struct chunk *c, uint32_t right)
{
    switch (below(s, 9)) {
    case 0:
        c->length = 0;
        break;
    case 1:
        c->length = right - 1;
        break;
    case 2:
        c->length = right + 1;
        break;
    case 3:
        c->length = 2 * right;
        break;
    case 4:                      /* a word short, as answers once were */
        c->length = right - 4;
        break;
    case 5:
        c->length = right + 4;
        break;
    case 6:                      /* alike in the low byte, or in ten bits */
        c->length = right + (chance(s, 70) ? 256 : 1024);
        break;
    case 7:                      /* the old form of an image, or nearly */
        c->length = OLD_IMAGE_BYTES + (chance(s, 80) ? 0 : 2 * below(s, 2) - 1);
        if (right == IMAGE_BYTES)
            image_narrow(c->bytes);
        break;
    default:
        c->length = right_lengths[below(s, CHUNKS)];
        break;
    }
}

static void wrong_lengths(uint64_t *s, struct chunk *c)
{
    uint32_t which = 1 + below(s, 15);
    if (chance(s, 60))           /* mostly one alone */
        which = 1u << below(s, 4);
    for (int i = 0; i < CHUNKS; i++)
        if (which >> i & 1)
            wrong_length(s, &c[i], right_lengths[i]);
}

/* A request that fits the image, which is good by this edition. */
static struct request case_request(uint64_t *s, uint32_t edition,
                                   const uint8_t *image)
{
    if (!table_read(&world.table, edition, image)) {
        fputs("generate: a good image was refused\n", stderr);
        exit(1);
    }
    world.seed = draw(s);
    world_habits(&world);
    struct request q = world_choose(&world);
    if (world.table.task[world.table.active].senders.length > 0 &&
        chance(s, 25))
        q.kind = KIND_EXIT;
    else if (chance(s, 40))
        world_ring(&world, &q);
    return q;
}

static void one_case(struct world *runs, uint64_t *s)
{
    static struct chunk c[CHUNKS];
    uint32_t roll = below(s, 100), given = some_edition(s);
    uint32_t edition = image_edition(s, given);
    struct request q;
    for (int i = 0; i < CHUNKS; i++) {
        c[i].length = right_lengths[i];
        garbage(s, c[i].bytes, right_lengths[i] + 64);
    }
    base_image(runs, s, edition, c[IMAGE_CHUNK].bytes);
    q = case_request(s, edition, c[IMAGE_CHUNK].bytes);
    request_write(&q, c[RECORD_CHUNK].bytes);
    if (roll >= 50)
        image_damage(s, c[IMAGE_CHUNK].bytes);
    if (roll >= 88 && roll < 93)
        for (uint32_t i = 1 + below(s, 3); i > 0; i--)
            image_damage(s, c[IMAGE_CHUNK].bytes);
    if (roll < 6 || roll >= 96)
        wrong_lengths(s, c);
    put_word(given);
    for (int i = 0; i < CHUNKS; i++)
        put_chunk(&c[i]);
}

/* Areas that are all different show what was copied though nothing may be. */
void put_lengths(const uint8_t *image, const uint32_t *length,
                 const struct request *q)
{
    static struct chunk c[CHUNKS];
    uint64_t s = 1;
    for (int i = 0; i < CHUNKS; i++) {
        c[i].length = length[i];
        garbage(&s, c[i].bytes, c[i].length);
    }
    memcpy(c[IMAGE_CHUNK].bytes, image, IMAGE_BYTES);
    request_write(q, c[RECORD_CHUNK].bytes);
    put_word(given_edition);
    for (int i = 0; i < CHUNKS; i++)
        put_chunk(&c[i]);
}

void put_case(const uint8_t *image, uint32_t areas, const struct request *q)
{
    const uint32_t length[CHUNKS] = {IMAGE_BYTES, areas, RECORD_BYTES,
                                     ANSWER_BYTES};
    put_lengths(image, length, q);
}

static int cases(uint64_t seed, unsigned long count)
{
    static struct world runs[2];
    uint64_t s = seed;
    runs_start(runs, &s, true);
    for (unsigned long i = 0; i < count; i++)
        one_case(runs, &s);
    return 0;
}

/* The stream whose eleven lines are printed in the scope document. */
static int first_run(void)
{
    static const struct request steps[] = {
        {1, {8}}, {7, {0, 4}}, {11, {10, 65}}, {6, {2, 10, 6, 20, 1}},
        {8, {1, 0, 3}}, {8, {1, 0, 3}}, {5, {0}}, {6, {2}}, {9, {3}},
        {2, {0}}, {10, {3, 7}}};
    for (unsigned i = 0; i < sizeof steps / sizeof steps[0]; i++)
        put_request(&steps[i]);
    return 0;
}

/* What needs no seed, by its name; of some there are several patterns, and some
 * are given an edition. */
struct named {
    const char *name;
    int (*make)(void);
};

static const struct named fixed[] = {
    {"first-run", first_run}, {"fixed-starts", starts_fixed},
    {"fixed-clocks", clocks_fixed}, {"edition-cases", editions_cases},
    {"edition-converts", editions_converts}};

static const struct named given[] = {
    {"fixed-cases", doors_cases}, {"cut-cases", cuts_cases},
    {"entry-cases", entries_cases}, {"event-cases", events_cases},
    {"rule-cases", rules_cases},
    {"fixed-converts", converts_fixed}, {"event-converts", events_converts}};

static const struct {
    const char *name;
    int (*make)(uint32_t pattern);
} patterns[] = {{"fixed-run", doors_run}, {"cut-run", cuts_run},
                {"entry-run", entries_run}, {"event-run", events_run}};

static const struct {
    const char *name;
    int (*make)(uint64_t seed, unsigned long count);
} seeded[] = {
    {"requests", requests}, {"cases", cases}, {"starts", starts_drawn},
    {"clock", clocks_drawn}, {"converts", converts_drawn}};

static int usage(void)
{
    fputs("usage: generate requests SEED STEPS [INDEX]\n"
          "       generate cases SEED COUNT [INDEX]\n"
          "       generate starts SEED COUNT [INDEX]\n"
          "       generate clock SEED MESSAGES [INDEX]\n"
          "       generate converts SEED COUNT [INDEX]\n"
          "       generate first-run\n"
          "       generate fixed-run PATTERN\n"
          "       generate fixed-cases EDITION\n"
          "       generate cut-run PATTERN\n"
          "       generate cut-cases EDITION\n"
          "       generate entry-run PATTERN\n"
          "       generate entry-cases EDITION\n"
          "       generate event-run PATTERN\n"
          "       generate event-cases EDITION\n"
          "       generate event-converts EDITION\n"
          "       generate rule-cases EDITION\n"
          "       generate edition-cases\n"
          "       generate edition-converts\n"
          "       generate fixed-starts\n"
          "       generate fixed-clocks\n"
          "       generate fixed-converts EDITION\n"
          "       generate words WORD...\n"
          "       generate one-start EDITION PRIORITY ENTRY LENGTH\n", stderr);
    return 2;
}

static uint32_t word_of(const char *digits)
{
    return (uint32_t)strtoul(digits, NULL, 10);
}

int main(int argc, char **argv)
{
    for (unsigned i = 0; argc == 2 && i < COUNT(fixed); i++)
        if (strcmp(argv[1], fixed[i].name) == 0)
            return fixed[i].make();
    for (unsigned i = 0; argc == 3 && i < COUNT(given); i++)
        if (strcmp(argv[1], given[i].name) == 0) {
            given_edition = word_of(argv[2]);
            return given[i].make();
        }
    for (unsigned i = 0; argc == 3 && i < COUNT(patterns); i++)
        if (strcmp(argv[1], patterns[i].name) == 0)
            return patterns[i].make(word_of(argv[2]));
    for (int i = 2; argc >= 3 && strcmp(argv[1], "words") == 0; i++) {
        if (i == argc)
            return 0;
        put_word(word_of(argv[i]));
    }
    if (argc == 6 && strcmp(argv[1], "one-start") == 0)
        return starts_one(word_of(argv[2]), word_of(argv[3]),
                          word_of(argv[4]), word_of(argv[5]));
    if (argc == 4 || argc == 5) {
        uint64_t seed = strtoull(argv[2], NULL, 10);
        unsigned long count = strtoul(argv[3], NULL, 10);
        seed = mix(seed, argc == 5 ? strtoull(argv[4], NULL, 10) : 0);
        for (unsigned i = 0; i < COUNT(seeded); i++)
            if (strcmp(argv[1], seeded[i].name) == 0)
                return seeded[i].make(seed, count);
    }
    return usage();
}
