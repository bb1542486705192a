/* Checks the peer itself before it is used to judge another program; built
 * with -DCOVER. */
#include <stdio.h>
#include <stdlib.h>
#include <string.h>

#include "cover.h"
#include "kernel.h"
#include "selftest.h"

static struct table k;
static uint8_t areas[AREAS_BYTES];

void expect(bool holds, const char *what)
{
    if (!holds) {
        printf("self test of the peer failed: %s\n", what);
        exit(1);
    }
}

static struct answer step(int32_t kind, int32_t a, int32_t b)
{
    struct request q = {kind, {a, b}};
    return table_step(&k, areas, &q);
}

static void expect_answer(struct answer got, struct answer want,
                          const char *what)
{
    expect(got.verdict == want.verdict && got.next == want.next &&
           got.result.kind == want.result.kind &&
           got.result.number == want.result.number &&
           got.result.from == want.result.from &&
           got.result.cut == want.result.cut, what);
}

static void expect_step(int32_t kind, int32_t a, int32_t b,
                        struct answer want, const char *what)
{
    expect_answer(step(kind, a, b), want, what);
}

static void fresh(void)
{
    memset(areas, 0, sizeof areas);
    expect(table_start(&k, 1, FIRST_PRIORITY, 0) == 0, "start");
}

static const struct answer idle = {0, 0, {RESULT_NOTHING, 0, 0, false}};

static struct answer ok(uint32_t next, int32_t number)
{
    uint32_t kind = number < 0 ? RESULT_FAULT : RESULT_VALUE;
    return (struct answer){0, next, {kind, number, 0, false}};
}

static struct answer refused(uint32_t verdict, uint32_t next)
{
    return (struct answer){verdict, next, {RESULT_NOTHING, 0, 0, false}};
}

/* ---- the eleven steps, through the byte entry ---- */

static const struct request first_steps[11] = {
    {1, {8}}, {7, {0, 4}}, {11, {10, 65}}, {6, {2, 10, 6, 20, 1}},
    {8, {1, 0, 3}}, {8, {1, 0, 3}}, {5, {0}}, {6, {2}}, {9, {3}},
    {2, {0}}, {10, {3, 7}}};

/* -1 and -2 as 255 and 254. Of six bytes four fit in step 4, of three bytes one
 * in step 5, whose sender is told in step 7. */
static const uint8_t first_answers[11][6] = {
    {0, 2, 0, 0, 0, 0}, {0, 1, 1, 2, 0, 0}, {0, 1, 0, 0, 0, 0},
    {0, 2, 1, 6, 1, 1}, {0, 2, 1, 1, 0, 1}, {0, 2, 2, 254, 0, 0},
    {0, 1, 1, 3, 0, 1}, {0, 1, 2, 255, 0, 0}, {0, 0, 0, 0, 0, 0},
    {4, 0, 0, 0, 0, 0}, {0, 1, 1, 7, 0, 0}};

static void first_run(void)
{
    uint8_t image[IMAGE_BYTES], record[RECORD_BYTES], answer[ANSWER_BYTES];
    memset(areas, 0, sizeof areas);
    expect(peer_start(1, FIRST_PRIORITY, 0, image, sizeof image) == 0, "start");
    for (int i = 0; i < 11; i++) {
        request_write(&first_steps[i], record);
        memset(answer, 0xAA, sizeof answer);
        uint32_t verdict = peer_step(1, image, sizeof image,
                                     areas, sizeof areas,
                                     record, sizeof record, answer,
                                     sizeof answer);
        expect(verdict == first_answers[i][0], "first run, verdict");
        for (int j = 0; j < ANSWER_BYTES; j++) {
            uint8_t low = first_answers[i][j / 4];
            uint8_t high = low >= 254 ? 255 : 0;
            expect(answer[j] == (j % 4 ? high : low), "first run, answer");
        }
    }
    for (int i = 0; i < AREAS_BYTES; i++)
        expect(areas[i] == (i == 10 || i == 20 || i == AREA ? 65 : 0),
               "first run, areas");
}

/* ---- the lines the scope document wants run ---- */

static void creation(void)
{
    fresh();
    expect_step(KIND_CREATE, 31, 0, ok(1, 2), "priority 31");
    expect_step(KIND_CREATE, 32, 0, ok(1, -1), "priority 32");
    expect_step(KIND_CREATE, -1, 0, ok(1, -1), "priority -1");
    for (int tid = 3; tid <= TASKS; tid++)
        expect_step(KIND_CREATE, 31, 0, ok(1, tid), "32 tasks");
    expect_step(KIND_CREATE, 31, 0, ok(1, -2), "33rd task");
    expect_step(KIND_CREATE, 32, 0, ok(1, -1), "full, 32");
}

static void buffers(void)
{
    fresh();
    step(KIND_CREATE, 8, 0);
    expect_step(KIND_RECEIVE, 255, 2, ok(2, -3), "255 and 2");
    expect_step(KIND_RECEIVE, INT32_MAX, 1, ok(2, -3), "huge offset");
    expect_step(KIND_RECEIVE, 257, 0, ok(2, -3), "257 and 0");
    expect_step(KIND_RECEIVE, 255, 1, ok(1, 2), "255 and 1");
    fresh();
    step(KIND_CREATE, 8, 0);
    expect_step(KIND_RECEIVE, 256, 0, ok(1, 2), "256 and 0");
}

static void events(void)
{
    fresh();
    expect_step(KIND_AWAIT_EVENT, 64, 0, ok(1, -1), "await 64");
    expect_step(KIND_EVENT, 64, 0, refused(8, 1), "event 64");
    expect_step(KIND_AWAIT_EVENT, 63, 0, idle, "await 63");
    expect_step(KIND_EVENT, 63, 0, ok(1, 0), "data 0");
    step(KIND_AWAIT_EVENT, 63, 0);
    expect_step(KIND_EVENT, 62, 1, idle, "no waiter, idle");
    expect_step(KIND_EVENT, 63, -5, ok(1, -2), "data -5");
    expect_step(KIND_OWN_WRITE, 256, 0, refused(9, 1), "write");
    expect_step(12, 0, 0, refused(3, 1), "kind 12");
}

/* ---- senders whose target exits, worked out by hand from request P2 ---- */

static struct answer plain(uint32_t next)
{
    return (struct answer){0, next, {RESULT_NOTHING, 0, 0, false}};
}

static struct answer ok_from(uint32_t next, int32_t number, uint32_t from,
                             bool cut)
{
    return (struct answer){0, next, {RESULT_VALUE, number, from, cut}};
}

/* A message of this length at 30, and room for a reply of 5 bytes at 40. */
static void expect_send(int32_t tid, int32_t length, struct answer want,
                        const char *what)
{
    struct request q = {KIND_SEND, {tid, 30, length, 40, 5}};
    expect_answer(table_step(&k, areas, &q), want, what);
}

/* A reply of one byte, that at 50. */
static void expect_reply(int32_t tid, struct answer want, const char *what)
{
    struct request q = {KIND_REPLY, {tid, 50, 1}};
    expect_answer(table_step(&k, areas, &q), want, what);
}

/* Tids 2, 3 and 4 of priority 20 queue at tid 1 in the order 3, 4, 2. */
static void three_senders(void)
{
    fresh();
    for (int32_t tid = 2; tid <= 4; tid++)
        expect_step(KIND_CREATE, 20, 0, ok(1, tid), "three tasks");
    expect_step(KIND_CREATE, 31, 0, ok(1, 5), "one below them");
    expect_step(KIND_AWAIT_EVENT, 7, 0, plain(2), "tid 1 waits");
    expect_step(KIND_YIELD, 0, 0, plain(3), "tid 2 goes last");
    expect_send(1, 4, plain(4), "tid 3 sends");
    expect_send(1, 6, ok(2, 0), "tid 4 sends");
    expect_send(1, 0, plain(5), "tid 2 sends");
    expect_step(KIND_EVENT, 7, 0, ok(1, 0), "tid 1 is back");
}

/* One was received before, and is replied to by a task that never saw it. A
 * task that was ready runs before those let go, who are of its priority. */
static void door_closes(void)
{
    three_senders();
    areas[2 * AREA + 30] = 65;
    areas[3 * AREA + 50] = 66;
    areas[3 * AREA + 40] = 67;   /* room for a reply that never comes */
    expect_step(KIND_RECEIVE, 0, 4, ok_from(1, 4, 3, false), "one received");
    expect_step(KIND_CREATE, 20, 0, ok(1, 6), "one made ready");
    expect_step(KIND_EXIT, 0, 0, plain(6), "who was ready goes on");
    expect_reply(4, ok(4, -2), "first let go");
    expect_reply(3, ok(2, -2), "second let go");
    expect_send(1, 4, ok(6, -2), "no reply to one let go");
    expect_step(KIND_YIELD, 0, 0, ok(3, 1), "who was received, replied to");
    expect_reply(1, ok(4, 1), "who replied");
    expect_step(KIND_YIELD, 0, 0, ok(2, -1), "no Send to who exited");
    for (int i = 0; i < AREAS_BYTES; i++)
        expect(areas[i] == (i == 0 || i == 2 * AREA + 30 ? 65
                            : i == 3 * AREA + 50 || i == 2 * AREA + 40 ? 66
                            : i == 3 * AREA + 40 ? 67 : 0),
               "one message, one reply");
}

/* The better priority was queued last, and runs first; nobody is ready. */
static void door_by_priority(void)
{
    fresh();
    expect_step(KIND_CREATE, 10, 0, plain(2), "tid 2");
    expect_step(KIND_AWAIT_EVENT, 2, 0, ok(1, 2), "tid 2 waits");
    expect_step(KIND_CREATE, 20, 0, ok(1, 3), "tid 3");
    expect_step(KIND_AWAIT_EVENT, 1, 0, plain(3), "tid 1 waits");
    expect_send(1, 1, idle, "tid 3 sends");
    expect_step(KIND_EVENT, 2, 9, ok(2, 9), "tid 2 woken");
    expect_send(1, 1, idle, "tid 2 sends");
    expect_step(KIND_EVENT, 1, 0, ok(1, 0), "tid 1 woken");
    expect_step(KIND_EXIT, 0, 0, ok(2, -2), "the better one runs");
    expect_step(KIND_YIELD, 0, 0, ok(2, 0), "and is shown it once");
    expect_send(3, 1, ok(3, -2), "the other one is next");
    expect_step(KIND_EXIT, 0, 0, ok(2, -2), "let go by one let go");
    expect_step(KIND_EXIT, 0, 0, idle, "nobody left");
}

/* Tid 2 is let go; tid 3 stays queued at it, and tid 4 at tid 5. */
static void door_and_others(void)
{
    fresh();
    for (int32_t tid = 2; tid <= 5; tid++)
        expect_step(KIND_CREATE, 20, 0, ok(1, tid), "four tasks");
    expect_step(KIND_AWAIT_EVENT, 7, 0, plain(2), "tid 1 waits");
    expect_send(1, 1, plain(3), "2 queued at 1");
    expect_send(2, 4, plain(4), "3 queued at 2");
    expect_send(5, 6, plain(5), "4 queued at 5");
    expect_step(KIND_EVENT, 7, 0, ok(1, 0), "tid 1 is back");
    expect_step(KIND_EXIT, 0, 0, plain(5), "only 2 let go, behind 5");
    expect_step(KIND_RECEIVE, 0, 4, ok(2, -2), "5 has its sender");
    expect_step(KIND_RECEIVE, 0, 4, ok_from(5, 6, 4, true),
                "2 has its sender");
    expect_step(KIND_YIELD, 0, 0, ok_from(2, 4, 3, false),
                "nobody else was ready");
}

/* Tid 1 active, the others queued at it, tid 32 first, all of priority 5. */
static void crowd_image(uint8_t *image)
{
    memset(image, 0, IMAGE_BYTES);
    image[0] = STATE_ACTIVE;
    for (uint8_t tid = 2; tid <= TASKS; tid++) {
        uint8_t *b = image + (tid - 1) * SLOT_BYTES;
        b[0] = STATE_RECEIVE_BLOCKED;
        b[1] = 5;
        b[2] = 1;
        b[3] = (uint8_t)(TASKS - tid);
        b[4] = 1;
        b[6] = b[8] = b[10] = b[12] = tid;
    }
}

static struct answer through_image(uint8_t *image, int32_t kind)
{
    struct request q = {kind, {0}};
    uint8_t record[RECORD_BYTES], answer[ANSWER_BYTES];
    struct answer a;
    request_write(&q, record);
    a.verdict = peer_step(1, image, IMAGE_BYTES, areas, AREAS_BYTES, record,
                          RECORD_BYTES, answer, ANSWER_BYTES);
    expect(answer[0] == a.verdict, "verdict in the answer");
    a.next = answer[4];
    a.result.kind = answer[8];
    a.result.number = (int8_t)answer[12];
    a.result.from = answer[16];
    a.result.cut = answer[20] == 1;
    return a;
}

static void crowd_goes(void)
{
    static const uint8_t gone[SLOT_BYTES] = {7};
    static const uint8_t let_go[SLOT_BYTES] = {2, 5, 1, 29, 0, 2, 0, 0, 0, 0,
                                               0, 0, 0, 0, 0, 0, 254, 255, 255,
                                               255};
    uint8_t image[IMAGE_BYTES];
    crowd_image(image);
    for (uint32_t tid = TASKS; tid >= 2; tid--) {
        int32_t kind = tid == TASKS ? KIND_EXIT : KIND_YIELD;
        expect_answer(through_image(image, kind), ok(tid, -2), "31 let go");
        expect(memcmp(image, gone, SLOT_BYTES) == 0, "record of who exited");
        if (tid == TASKS)
            expect(memcmp(image + SLOT_BYTES, let_go, SLOT_BYTES) == 0,
                   "record of one let go");
    }
    expect_answer(through_image(image, KIND_YIELD), ok(TASKS, 0),
                  "31 let go, once");
}

/* Of tids 1 and 2 one is queued at the other, in whatever state that is; tid 3
 * is active where the target is not, and else waits for event 63. */
static void target_image(uint8_t *image, enum state state, bool target_first)
{
    uint8_t *target = image + (target_first ? 0 : SLOT_BYTES);
    uint8_t *sender = image + (target_first ? SLOT_BYTES : 0);
    uint8_t *third = image + 2 * SLOT_BYTES;
    bool active = state == STATE_ACTIVE;
    memset(image, 0, IMAGE_BYTES);
    target[0] = (uint8_t)state;
    target[4] = state == STATE_RECEIVE_BLOCKED ? 3 : 0;
    sender[0] = STATE_RECEIVE_BLOCKED;
    sender[4] = target_first ? 1 : 2;
    third[0] = active ? STATE_EVENT_BLOCKED : STATE_ACTIVE;
    third[4] = active ? 63 : 0;
    image[SLOT_BYTES + 2] = third[2] = 1; /* parents */
}

static void targets(void)
{
    static const bool good[STATE_EXITED + 1] = {
        [STATE_ACTIVE] = true, [STATE_READY] = true,
        [STATE_RECEIVE_BLOCKED] = true, [STATE_REPLY_BLOCKED] = true,
        [STATE_EVENT_BLOCKED] = true};
    uint8_t image[IMAGE_BYTES], before[IMAGE_BYTES];
    for (int state = STATE_ACTIVE; state <= STATE_EXITED; state++) {
        target_image(image, (enum state)state, true);
        expect(table_read(&k, 1, image) == good[state], "target of lower tid");
        target_image(image, (enum state)state, false);
        expect(table_read(&k, 1, image) == good[state], "target of higher tid");
    }
    target_image(image, STATE_EXITED, true);
    expect_answer(through_image(image, KIND_YIELD), refused(2, 0),
                  "target exited, next 0");
    crowd_image(image);
    image[0] = STATE_EXITED;
    memcpy(before, image, sizeof image);
    expect_answer(through_image(image, 12), refused(2, 0),
                  "target exited, 2 before 3");
    expect_answer(through_image(image, KIND_MY_TID), refused(2, 0),
                  "target exited, 2 before 4");
    expect(memcmp(image, before, sizeof image) == 0, "refused, not repaired");
}

/* Paths that no job can reach; all others the comparison has to. */
static void count_starting(void)
{
    static const enum cover_path only_here[] = {STEP_UNUSED, WRITE_UNUSED};
    unsigned long before[PATHS];
    memset(cover_paths, 0, sizeof cover_paths);
    memset(cover_rules, 0, sizeof cover_rules);
    memset(cover_ways, 0, sizeof cover_ways);
    cover_load();
    memcpy(before, cover_paths, sizeof before);
    starting();
    for (unsigned i = 0; i < sizeof only_here / sizeof only_here[0]; i++)
        before[only_here[i]] = cover_paths[only_here[i]];
    memcpy(cover_paths, before, sizeof before);
    cover_save();
}

int main(void)
{
    first_run();
    creation();
    buffers();
    events();
    door_closes();
    door_by_priority();
    door_and_others();
    crowd_goes();
    targets();
    cut_cases();
    entry_cases();
    event_cases();
    clock_cases();
    count_starting();
    return 0;
}
