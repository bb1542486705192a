/* Worked cases of copies that are cut, by hand from request P8. */
#include <string.h>

#include "kernel.h"
#include "selftest.h"
#include "stored.h"

#define COUNT(list) (sizeof(list) / sizeof(list)[0])

static uint8_t image[IMAGE_BYTES], areas[AREAS_BYTES];

/* A step and the six words of its answer. */
struct line {
    struct request q;
    int32_t answer[6];
};

static void start(void)
{
    memset(areas, 0, sizeof areas);
    expect(peer_start(1, FIRST_PRIORITY, 0, image, sizeof image) == 0, "start");
}

static void step(const struct line *l, const char *what)
{
    uint8_t record[RECORD_BYTES], answer[ANSWER_BYTES];
    uint32_t verdict;
    request_write(&l->q, record);
    memset(answer, 0xAA, sizeof answer);
    verdict = peer_step(1, image, sizeof image, areas, sizeof areas, record,
                        sizeof record, answer, sizeof answer);
    expect(verdict == (uint32_t)l->answer[0], what);
    for (int i = 0; i < 6; i++)
        expect(get_signed32(answer + 4 * i) == l->answer[i], what);
}

/* Tid 2 is of the better priority, and waits in Receive or is queued at. */
static void borders(void)
{
    static const struct line lines[] = {
        {{1, {8}}, {0, 2, 0, 0, 0, 0}},
        {{7, {0, 4}}, {0, 1, 1, 2, 0, 0}},
        {{6, {2, 0, 4, 0, 0}}, {0, 2, 1, 4, 1, 0}},     /* 4 into 4 */
        {{8, {1, 0, 0}}, {0, 2, 1, 0, 0, 0}},           /* 0 into 0 */
        {{7, {0, 4}}, {0, 1, 1, 0, 0, 0}},
        {{6, {2, 0, 5, 0, 0}}, {0, 2, 1, 5, 1, 1}},     /* 5 into 4 */
        {{8, {1, 0, 0}}, {0, 2, 1, 0, 0, 0}},           /* and a whole reply */
        {{7, {0, 0}}, {0, 1, 1, 0, 0, 0}},
        {{6, {2, 0, 0, 10, 2}}, {0, 2, 1, 0, 1, 0}},    /* 0 into 0 */
        {{8, {1, 0, 3}}, {0, 2, 1, 2, 0, 1}},           /* 3 into 2 */
        {{4, {0}}, {0, 2, 1, 0, 0, 0}},                 /* not told twice */
        {{7, {0, 0}}, {0, 1, 1, 3, 0, 1}},              /* the other end */
        {{6, {2, 0, 1, 0, 0}}, {0, 2, 1, 1, 1, 1}},     /* 1 into 0 */
        {{8, {1, 0, 1}}, {0, 2, 1, 0, 0, 1}},           /* 1 into 0 */
        {{2, {0}}, {0, 2, 1, 2, 0, 0}},
        {{9, {5}}, {0, 1, 1, 1, 0, 1}},
        {{6, {2, 0, 256, 0, 256}}, {0, 0, 0, 0, 0, 0}},
        {{10, {5, 1}}, {0, 2, 1, 1, 0, 0}},             /* data 1 is no cut */
        {{7, {0, 255}}, {0, 2, 1, 256, 1, 1}},          /* 256 into 255 */
        {{8, {1, 0, 256}}, {0, 2, 1, 256, 0, 0}},       /* 256 into 256 */
        {{7, {1, 2}}, {0, 1, 1, 256, 0, 0}},
        {{5, {0}}, {0, 0, 0, 0, 0, 0}}};
    start();
    for (unsigned i = 0; i < COUNT(lines); i++)
        step(&lines[i], "lengths at their borders");
}

/* Three of one priority, so that each result waits in its record. A third task
 * replies, and what was cut of the message is nothing to the sender. */
static void kept(void)
{
    static const struct line lines[] = {
        {{1, {16}}, {0, 2, 0, 0, 0, 0}},
        {{6, {1, 0, 3, 8, 1}}, {0, 1, 1, 2, 0, 0}},
        {{1, {16}}, {0, 3, 0, 0, 0, 0}},
        {{4, {0}}, {0, 1, 1, 3, 0, 0}},
        {{7, {0, 2}}, {0, 3, 1, 0, 0, 0}},              /* 3 into 2 */
        {{8, {2, 0, 2}}, {0, 1, 1, 3, 2, 1}},           /* 2 into 1 */
        {{11, {0, 7}}, {0, 1, 0, 0, 0, 0}},
        {{12, {0}}, {3, 1, 0, 0, 0, 0}},
        {{6, {1}}, {0, 2, 1, 2, 0, 1}},
        {{10, {0, 0}}, {0, 3, 1, 1, 0, 1}},
        {{4, {0}}, {0, 1, 2, -2, 0, 0}},
        {{4, {0}}, {0, 2, 0, 0, 0, 0}},
        {{4, {0}}, {0, 3, 1, 0, 0, 0}},
        {{4, {0}}, {0, 1, 1, 0, 0, 0}}};
    static const uint8_t receiver[SLOT_BYTES] = {
        2, 16, 0, 0, 0, 1, 0, 0, 0, 0, 0, 0, 0, 0, 2, 1, 3, 0, 0, 0,
        0, 0, 0, 0};
    static const uint8_t ends[2 * SLOT_BYTES] = {
        2, 16, 1, 0, 0, 1, 0, 0, 0, 0, 0, 0, 0, 0, 0, 1, 2, 0, 0, 0,
        0, 0, 0, 0,
        2, 16, 1, 1, 0, 1, 0, 0, 0, 0, 0, 0, 0, 0, 0, 1, 1, 0, 0, 0,
        0, 0, 0, 0};
    start();
    for (unsigned i = 0; i < COUNT(lines); i++) {
        step(&lines[i], "cut values that wait");
        if (i == 4)
            expect(memcmp(image, receiver, sizeof receiver) == 0,
                   "record of a receiver");
        if (i >= 5 && i <= 7)
            expect(memcmp(image + SLOT_BYTES, ends, sizeof ends) == 0,
                   "records of both ends of a reply");
    }
}

/* Tid 2 in some state; tid 1 is active, or where tid 2 is, waits. */
static void byte_15(enum state state, uint8_t kind, int32_t number)
{
    uint8_t *b = image + SLOT_BYTES;
    struct table k;
    memset(image, 0, sizeof image);
    image[AT_STATE] = state == STATE_ACTIVE ? STATE_EVENT_BLOCKED
                                            : STATE_ACTIVE;
    b[AT_STATE] = (uint8_t)state;
    b[AT_PARENT] = 1;
    b[AT_WAITS_FOR] = state == STATE_RECEIVE_BLOCKED;
    b[AT_RESULT] = kind;
    put32(b + AT_NUMBER, (uint32_t)number);
    for (int cut = 0; cut < 256; cut++) {
        b[AT_CUT] = (uint8_t)cut;
        expect(table_read(&k, 1, image) ==
                   (cut == 0 || (cut == 1 && kind == RESULT_VALUE)),
               "byte 15");
    }
}

static void stored(void)
{
    for (int state = STATE_ACTIVE; state <= STATE_EXITED; state++)
        byte_15((enum state)state, RESULT_NOTHING, 0);
    byte_15(STATE_READY, RESULT_VALUE, 0);
    byte_15(STATE_READY, RESULT_VALUE, INT32_MAX);
    byte_15(STATE_READY, RESULT_FAULT, -1);
    byte_15(STATE_READY, RESULT_FAULT, -3);
    memset(image, 0, sizeof image);
    image[AT_STATE] = STATE_ACTIVE;
    image[SLOT_BYTES + AT_CUT] = 1;
    step(&(struct line){{4, {0}}, {2, 0, 0, 0, 0, 0}}, "cut, no task");
}

static void answers(void)
{
    uint8_t record[RECORD_BYTES] = {KIND_CREATE}, answer[64], before[64];
    memset(before, 0xAA, sizeof before);
    for (uint64_t length = 0; length <= sizeof answer; length++) {
        uint32_t verdict;
        start();
        memcpy(answer, before, sizeof answer);
        verdict = peer_step(1, image, sizeof image, areas, sizeof areas, record,
                            sizeof record, answer, length);
        expect(verdict == (length == 24 ? 0 : 10), "length of an answer");
        expect((image[SLOT_BYTES] != 0) == (length == 24), "no step");
        expect(memcmp(answer + 24, before, 40) == 0, "past the answer");
        expect(length == 24 || memcmp(answer, before, 24) == 0, "no answer");
    }
}

void cut_cases(void)
{
    borders();
    kept();
    stored();
    answers();
}
