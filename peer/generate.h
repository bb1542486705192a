/* Seeded requests, byte-entry cases, starts, histories of clocks and
 * conversions of images. */
#ifndef PEER_GENERATE_H
#define PEER_GENERATE_H

#include "clock.h"
#include "kernel.h"

enum { STATES = STATE_EXITED + 1, LONGEST = 16384 };

#define COUNT(list) (sizeof(list) / sizeof(list)[0])

/* splitmix64: small, and the same everywhere; so no expression may hold two
 * draws whose order C leaves open. */
static inline uint64_t draw(uint64_t *seed)
{
    uint64_t z = (*seed += UINT64_C(0x9E3779B97F4A7C15));
    z = (z ^ z >> 30) * UINT64_C(0xBF58476D1CE4E5B9);
    z = (z ^ z >> 27) * UINT64_C(0x94D049BB133111EB);
    return z ^ z >> 31;
}

static inline uint32_t below(uint64_t *seed, uint32_t n)
{
    return (uint32_t)((draw(seed) >> 32) * n >> 32);
}

static inline bool chance(uint64_t *seed, uint32_t percent)
{
    return below(seed, 100) < percent;
}

static inline bool is(const struct table *k, uint32_t tid, enum state state)
{
    return k->task[tid].state == state;
}

/* A kernel that is followed, and the habits of its tasks. */
struct world {
    struct table table;
    uint8_t areas[AREAS_BYTES];
    uint64_t seed;
    uint32_t priorities;     /* how new tasks get theirs, 0..2 */
    uint32_t exits;          /* weight of Exit */
    uint32_t leaves;         /* more of it, while senders are queued */
    uint32_t creates;        /* weight of Create while slots are free */
    uint32_t sends;          /* weight of Send, half of it Receive */
    uint32_t hot;            /* tid that gets most messages */
    bool mortal;             /* may run into a standstill */
    uint32_t doors;          /* percent of steps at which a door is chosen */
    uint32_t door;           /* at which the others queue till it exits, or 0 */
    uint32_t crowd;          /* how many it waits for */
    uint32_t patience;       /* steps until it is given up */
    uint32_t least;          /* tasks that doors are to leave */
    uint32_t flock;          /* percent that wait for what another waits for */
    uint32_t bells;          /* percent of steps at which a bell is chosen */
    uint32_t bell;           /* the event that all wait for, */
    uint32_t hearers;        /* how many of them, 0 for no bell, */
    uint32_t hope;           /* and steps until it is given up */
};

void world_start(struct world *w, uint64_t seed, uint32_t edition,
                 uint32_t priority, uint32_t entry);
void world_habits(struct world *w);
bool world_dead(const struct table *k);
struct request world_choose(struct world *w);  /* any request */
struct request world_live(struct world *w);    /* one that keeps it going */
void world_fill(struct world *w, struct request *q); /* arguments of its kind */
void world_ring(struct world *w, struct request *q);
bool world_exists(const struct table *k, uint32_t tid);
uint32_t world_living(const struct table *k);
uint32_t world_some_living(struct world *w);
uint32_t world_stuck(const struct table *k);

/* The kernel of a stream of the job run, which is followed while its requests
 * go to standard output. */
extern struct table followed;
void stream_start(uint32_t edition);
void step(int32_t kind, uint32_t a, uint32_t b, uint32_t c, uint32_t d,
          uint32_t e);

/* Entry numbers: any; one of a fixed list, by its number; and one whose bytes
 * all differ from each other, not 0, for each slot another. */
uint32_t some_entry(uint64_t *seed);
uint32_t listed_entry(uint32_t n);
uint32_t entry_of(uint32_t slot);
enum { ENTRIES = 16 };

/* An offset and a length at arg: any, a bad one, and one for a copy from or
 * into the other buffer, NULL if it is not known. */
void room(struct world *w, int32_t *arg);
void room_bad(struct world *w, int32_t *offset, int32_t *length);
void room_facing(struct world *w, int32_t *arg, const struct buffer *other);

/* The chunks of a case, and how long each has to be. */
enum { IMAGE_CHUNK, AREAS_CHUNK, RECORD_CHUNK, ANSWER_CHUNK, CHUNKS };
extern const uint32_t right_lengths[CHUNKS];

struct chunk {
    uint32_t length;
    uint8_t bytes[LONGEST];
};

void garbage(uint64_t *s, uint8_t *to, uint32_t length);

/* Words to give as an edition: any, mostly one; any that is none; one of a
 * fixed list that are none; the edition that an image is made for, if it is to
 * be given with this word. */
uint32_t some_edition(uint64_t *seed);
uint32_t some_no_edition(uint64_t *seed);
uint32_t listed_no_edition(uint32_t n);
uint32_t image_edition(uint64_t *seed, uint32_t given);
enum { NO_EDITIONS = 18 };

/* The edition that cases and conversions of fixed lists are given. */
extern uint32_t given_edition;

/* To standard output: a record; a word; a chunk; a case with chunks of these
 * lengths; one that is whole but for the length of the areas. */
void put_request(const struct request *q);
void put_word(uint32_t word);
void put_chunk(const struct chunk *c);
void put_lengths(const uint8_t *image, const uint32_t *length,
                 const struct request *q);
void put_case(const uint8_t *image, uint32_t areas, const struct request *q);

/* A fixed list of tasks that exit with senders queued, to standard output:
 * streams, each with priorities of its own, and cases. */
int doors_run(uint32_t pattern);
int doors_cases(void);

/* A fixed list of copies that are cut or just not, likewise; the cases are also
 * about byte 15 and the length of an answer. */
int cuts_run(uint32_t pattern);
int cuts_cases(void);

/* A fixed list about entry numbers: a stream, and cases. */
int entries_run(uint32_t pattern);
int entries_cases(void);

/* A fixed list of bytes of tasks in each state. */
int rules_cases(void);

/* Fixed lists about waiters of events: streams, cases and conversions; and
 * words that are no edition with all that may be wrong beside them. */
int events_run(uint32_t pattern);
int events_cases(void);
int events_converts(void);
int editions_cases(void);
int editions_converts(void);

/* Conversions, to standard output: a fixed list, drawn ones. */
int converts_fixed(void);
int converts_drawn(uint64_t seed, unsigned long count);

/* Images for cases, by either edition: a good one from the run of this edition
 * or made up, one made up whole, and one thing spoiled. */
void runs_start(struct world *runs, uint64_t *s, bool entries);
void base_image(struct world *runs, uint64_t *s, uint32_t edition,
                uint8_t *image);
void image_invent(uint64_t *seed, uint32_t edition, uint8_t *image);
void image_damage(uint64_t *seed, uint8_t *image);

/* Records of starts, to standard output: any one, a fixed list, drawn ones. */
int starts_one(uint32_t edition, uint32_t priority, uint32_t entry,
               uint32_t length);
int starts_fixed(void);
int starts_drawn(uint64_t seed, unsigned long count);

/* Records of the job clock, to standard output: any one, a fixed list, drawn
 * ones. */
void clock_words(uint32_t a, uint32_t b, uint32_t c, uint32_t d);
int clocks_fixed(void);
int clocks_drawn(uint64_t seed, unsigned long messages);

#endif
