/* Worked cases of entry numbers and of conversions, by hand from request P9. */
#include <string.h>

#include "kernel.h"
#include "selftest.h"
#include "stored.h"

#define COUNT(list) (sizeof(list) / sizeof(list)[0])

static uint8_t image[IMAGE_BYTES], areas[AREAS_BYTES];

/* A step through the image; only its verdict matters, and what it stores. */
static uint32_t step(uint64_t image_length, int32_t kind, int32_t a, int32_t b)
{
    struct request q = {kind, {a, b, 77, -1, 0x01020304}};
    uint8_t record[RECORD_BYTES], answer[ANSWER_BYTES];
    uint32_t verdict;
    request_write(&q, record);
    verdict = peer_step(1, image, image_length, areas, sizeof areas, record,
                        sizeof record, answer, sizeof answer);
    expect(get32(answer) == verdict, "verdict in the answer");
    return verdict;
}

static void expect_slot(uint32_t tid, const uint8_t *want, const char *what)
{
    expect(memcmp(image + (tid - 1) * SLOT_BYTES, want, SLOT_BYTES) == 0,
           what);
}

/* The low byte of an entry stands at 20, the high one at 23. */
static void started(void)
{
    static const uint8_t fresh[IMAGE_BYTES] = {
        1, 31, 0, 0, 0, 0, 0, 0, 0, 0, 0, 0, 0, 0, 0, 0, 0, 0, 0, 0,
        0x0A, 0x0B, 0x0C, 0x8D};
    static const uint64_t wrong[] = {0, 639, 640, 641, 767, 769};
    uint8_t before[IMAGE_BYTES];
    memset(image, 0xA5, sizeof image);
    memcpy(before, image, sizeof before);
    for (unsigned i = 0; i < COUNT(wrong); i++) {
        expect(peer_start(1, 31, 9, image, wrong[i]) == 7, "start, length");
        expect(peer_start(1, 32, 9, image, wrong[i]) == 6, "start, 6 before 7");
    }
    expect(peer_start(1, 32, 5, image, sizeof image) == 6, "start, priority");
    expect(memcmp(image, before, sizeof image) == 0, "start, no byte");
    expect(peer_start(1, 31, 0x8D0C0B0A, image, sizeof image) == 0, "start");
    expect(memcmp(image, fresh, sizeof image) == 0, "start, image");
}

/* Tid 1 of entry 7 makes tid 2, which makes tid 3 and exits; what faults keeps
 * nothing, and each entry stays where it is. */
static void created(void)
{
    static const uint8_t first[SLOT_BYTES] = {[0] = 1, [1] = 16, [20] = 7};
    static const uint8_t waiting[SLOT_BYTES] = {
        [0] = 2, [1] = 16, [5] = 1, [16] = 2, [20] = 7};
    static const uint8_t running[SLOT_BYTES] = {
        1, 8, 1, 0, 0, 0, 0, 0, 0, 0, 0, 0, 0, 0, 0, 0, 0, 0, 0, 0, 4, 3, 2,
        1};
    static const uint8_t gone[SLOT_BYTES] = {
        7, 8, 1, 0, 0, 0, 0, 0, 0, 0, 0, 0, 0, 0, 0, 0, 0, 0, 0, 0, 4, 3, 2,
        1};
    static const uint8_t third[SLOT_BYTES] = {
        2, 31, 2, 0, 0, 0, 0, 0, 0, 0, 0, 0, 0, 0, 0, 0, 0, 0, 0, 0, 254,
        255, 255, 255};
    static const uint8_t none[SLOT_BYTES] = {0};
    expect(peer_start(1, 16, 7, image, sizeof image) == 0, "start at 16");
    expect(step(sizeof image, KIND_CREATE, 32, 9) == 0, "bad priority");
    expect_slot(1, first, "the caller's entry stays");
    expect_slot(2, none, "no task, no entry");
    expect(step(sizeof image, KIND_CREATE, 8, 0x01020304) == 0, "tid 2");
    expect_slot(1, waiting, "record of the maker");
    expect_slot(2, running, "record of a new task");
    expect(step(sizeof image, KIND_CREATE, 31, -2) == 0, "tid 3");
    expect_slot(3, third, "an entry of -2");
    expect(step(sizeof image, KIND_EXIT, 0, 5) == 0, "tid 2 exits");
    expect_slot(2, gone, "record of who exited");
    expect(step(sizeof image, KIND_YIELD, 1, 1) == 0, "tid 1 goes on");
    expect_slot(1, first, "its entry stays");
    expect_slot(2, gone, "who exited keeps its own");
    expect_slot(3, third, "and who waits");
}

static void full(void)
{
    expect(peer_start(1, 0, 0, image, sizeof image) == 0, "start at 0");
    for (int32_t tid = 2; tid <= TASKS; tid++)
        expect(step(sizeof image, KIND_CREATE, 9, -tid) == 0, "32 tasks");
    expect(step(sizeof image, KIND_CREATE, 9, 1234) == 0, "a 33rd");
    expect(get32(image + AT_ENTRY) == 0, "entry of tid 1");
    for (uint32_t tid = 2; tid <= TASKS; tid++)
        expect(get32(image + (tid - 1) * SLOT_BYTES + AT_ENTRY) == 0 - tid,
               "entries of 32 tasks");
}

/* Tid 2 in some state, with an entry and all fields that the state wants; tid 1
 * is active, or where tid 2 is, waits for an event. */
static void in_state(enum state state)
{
    uint8_t *b = image + SLOT_BYTES;
    memset(image, 0, sizeof image);
    image[AT_STATE] = state == STATE_ACTIVE ? STATE_EVENT_BLOCKED
                                            : STATE_ACTIVE;
    b[AT_STATE] = (uint8_t)state;
    b[AT_PARENT] = 1;
    b[AT_WAITS_FOR] = state == STATE_RECEIVE_BLOCKED ? 1
                      : state == STATE_EVENT_BLOCKED ? 9 : 0;
    put32(b + AT_ENTRY, UINT32_MAX - 1);
}

/* It has its entry still, whatever happens. */
static void kept(void)
{
    static const int32_t request[][3] = {
        {KIND_YIELD, 0, 0}, {KIND_EXIT, 0, 0}, {KIND_RECEIVE, 0, 4},
        {KIND_REPLY, 2, 0}, {KIND_SEND, 2, 0}, {KIND_AWAIT_EVENT, 5, 0},
        {KIND_EVENT, 9, 3}, {KIND_CREATE, 0, -1}, {KIND_CREATE, 0, 0},
        {KIND_MY_PARENT_TID, 0, 0}, {KIND_OWN_WRITE, 0, 1}, {12, 0, 0}};
    for (int state = STATE_ACTIVE; state <= STATE_EXITED; state++)
        for (unsigned i = 0; i < COUNT(request); i++) {
            uint32_t want = i + 1 == COUNT(request) ? 3 : 0;
            in_state((enum state)state);
            expect(step(sizeof image, request[i][0], request[i][1],
                        request[i][2]) == want, "a step with entries");
            expect(get32(image + SLOT_BYTES + AT_ENTRY) == UINT32_MAX - 1,
                   "the entry is kept");
            expect(get32(image + AT_ENTRY) == 0, "and that of tid 1");
            if (request[i][0] == KIND_CREATE)
                expect(get32(image + 2 * SLOT_BYTES + AT_ENTRY) ==
                           (uint32_t)request[i][2], "the new one's");
        }
}

/* Only the newest form; and an entry where there is no task breaks a rule. */
static void refused(void)
{
    uint8_t before[IMAGE_BYTES];
    expect(peer_start(1, 16, 7, image, sizeof image) == 0, "start at 16");
    expect(step(640, KIND_YIELD, 0, 0) == 7, "image of 640 bytes");
    expect(step(767, KIND_YIELD, 0, 0) == 7, "image of 767 bytes");
    expect(step(0, 12, 0, 0) == 7, "image of 0 bytes");
    for (uint32_t tid = 2; tid <= TASKS; tid += 30)
        for (uint32_t at = 20; at < 24; at++) {
            uint8_t *b = image + (tid - 1) * SLOT_BYTES + at;
            *b = 1;
            memcpy(before, image, sizeof before);
            expect(step(sizeof image, KIND_YIELD, 0, 0) == 2, "no task's");
            expect(step(sizeof image, 12, 0, 0) == 2, "2 before 3");
            expect(memcmp(image, before, sizeof image) == 0, "no byte");
            *b = 0;
        }
    expect(step(sizeof image, KIND_YIELD, 0, 0) == 0, "good again");
}

/* ---- conversions ---- */

/* Tid 1 waits at tid 2, which is ready with a cut value; tid 3 is active, tid
 * 4 exited. The bytes are written out once for each form. */
static const uint8_t old_form[OLD_IMAGE_BYTES] = {
    4, 1, 0, 0, 2, 0, 3, 0, 253, 0, 0, 1, 0, 0, 0, 0, 0, 0, 0, 0,
    2, 5, 1, 0, 0, 1, 0, 0, 0, 0, 0, 0, 0, 0, 4, 1, 0x78, 0x56, 0x34, 0x12,
    1, 9, 2, 0, 0, 0, 0, 0, 0, 0, 0, 0, 0, 0, 0, 0, 0, 0, 0, 0,
    7, 31, 3, 0, 0, 0, 0, 0, 0, 0, 0, 0, 0, 0, 0, 0, 0, 0, 0, 0};
static const uint8_t new_form[IMAGE_BYTES] = {
    4, 1, 0, 0, 2, 0, 3, 0, 253, 0, 0, 1, 0, 0, 0, 0, 0, 0, 0, 0, 0, 0, 0, 0,
    2, 5, 1, 0, 0, 1, 0, 0, 0, 0, 0, 0, 0, 0, 4, 1, 0x78, 0x56, 0x34, 0x12,
    0, 0, 0, 0,
    1, 9, 2, 0, 0, 0, 0, 0, 0, 0, 0, 0, 0, 0, 0, 0, 0, 0, 0, 0, 0, 0, 0, 0,
    7, 31, 3, 0, 0, 0, 0, 0, 0, 0, 0, 0, 0, 0, 0, 0, 0, 0, 0, 0, 0, 0, 0, 0};

static uint8_t out[1024];

/* Nothing is written where it is refused, and never past the length. */
static void expect_convert(const uint8_t *from, uint64_t from_length,
                           uint64_t to_length, uint32_t want,
                           const char *what)
{
    uint64_t written = want == 0 ? to_length : 0;
    memset(out, 0xA5, sizeof out);
    expect(peer_convert(1, from, from_length, out, to_length) == want, what);
    for (uint64_t i = written; i < sizeof out; i++)
        expect(out[i] == 0xA5, what);
}

static void both_ways(void)
{
    expect_convert(old_form, 640, 768, 0, "old to new");
    expect(memcmp(out, new_form, 768) == 0, "old to new, bytes");
    expect_convert(new_form, 768, 640, 0, "new to old");
    expect(memcmp(out, old_form, 640) == 0, "new to old, bytes");
}

/* An image that is checked and copied; in the new form with its entries. */
static void one_form(void)
{
    uint8_t copy[IMAGE_BYTES];
    expect_convert(old_form, 640, 640, 0, "old to old");
    expect(memcmp(out, old_form, 640) == 0, "old to old, bytes");
    expect_convert(new_form, 768, 768, 0, "new to new");
    expect(memcmp(out, new_form, 768) == 0, "new to new, bytes");
    memcpy(copy, new_form, 768);
    put32(copy + 20, 0x80000001);
    put32(copy + 3 * 24 + 20, 7); /* of tid 4, which exited */
    expect_convert(copy, 768, 768, 0, "new to new, entries");
    expect(memcmp(out, copy, 768) == 0, "new to new, entries kept");
    expect_convert(copy, 768, 640, 11, "new to old, the same");
    copy[39] = 2;
    expect_convert(copy, 768, 768, 2, "new to new, byte 15");
    copy[39] = 1;
    copy[4 * 24 + 20] = 1;
    expect_convert(copy, 768, 768, 2, "new to new, no task's entry");
}

static void lengths(void)
{
    static const uint64_t length[] = {0, 20, 24, 639, 640, 641, 767, 768,
                                      769, 1024};
    for (unsigned i = 0; i < COUNT(length); i++)
        for (unsigned j = 0; j < COUNT(length); j++) {
            uint64_t a = length[i], b = length[j];
            static uint8_t from[1024];
            bool taken = (a == 640 || a == 768) && (b == 640 || b == 768);
            memcpy(from, new_form, sizeof new_form);
            from[20] = 1;
            expect_convert(from, a, b, !taken ? 7 : a == 640 ? 2
                                       : b == 640 ? 11 : 0,
                           "lengths of a conversion");
            memset(from, 0, sizeof from);
            expect_convert(from, a, b, taken ? 2 : 7, "7 before 2");
        }
}

/* 11 for each byte of each entry; 2 where no task has it, or where more is
 * wrong before it or behind. */
static void entries(void)
{
    for (int state = STATE_ACTIVE; state <= STATE_EXITED; state++) {
        in_state((enum state)state);
        expect_convert(image, 768, 640, 11, "an entry in each state");
        expect_convert(image, 768, 768, 0, "kept in each state");
        expect(memcmp(out, image, 768) == 0, "kept in its bytes");
        put32(image + SLOT_BYTES + AT_ENTRY, 0);
        expect_convert(image, 768, 640, 0, "and without it");
    }
    for (uint32_t i = 0; i < TASKS; i++)
        for (uint32_t at = 20; at < 24; at++) {
            memcpy(image, new_form, sizeof image);
            image[i * SLOT_BYTES + at] = 128;
            expect_convert(image, 768, 640, i < 4 ? 11 : 2, "one entry");
            expect_convert(image, 768, 768, i < 4 ? 0 : 2, "one kept");
            image[SLOT_BYTES + AT_CUT] = 2;
            expect_convert(image, 768, 640, 2, "2 before 11");
            image[SLOT_BYTES + AT_CUT] = 1;
            image[4 * SLOT_BYTES + AT_STATE] = 8;
            expect_convert(image, 768, 640, 2, "2 before 11, behind it");
        }
}

/* The rules of an old image are the same, whichever form it goes into. */
static void broken(uint64_t to)
{
    uint8_t old[OLD_IMAGE_BYTES];
    memcpy(old, old_form, sizeof old);
    memset(old + 60, 0, 20);     /* tid 2 has a value from tid 4 */
    expect_convert(old, 640, to, 2, "a from past the tasks");
    old[34] = 3;
    expect_convert(old, 640, to, 0, "three tasks");
    old[23] = 1;
    expect_convert(old, 640, to, 2, "a gap in a queue");
    memset(old + 23, 0, 17);
    expect_convert(old, 640, to, 0, "tid 2 ready with nothing");
    old[40] = 5;
    expect_convert(old, 640, to, 2, "nobody active, one ready");
    old[20] = 6;
    expect_convert(old, 640, to, 0, "an idle image");
    old[20] = 7;
    expect_convert(old, 640, to, 2, "a target that exited");
    memcpy(old, old_form, sizeof old);
    old[35] = 2;
    expect_convert(old, 640, to, 2, "a byte 15 of 2");
    old[35] = 1;
    old[639] = 1;
    expect_convert(old, 640, to, 2, "no task, not zero");
    memset(old, 0, sizeof old);
    expect_convert(old, 640, to, 2, "no task at all");
}

void entry_cases(void)
{
    started();
    created();
    full();
    kept();
    refused();
    both_ways();
    one_form();
    lengths();
    entries();
    broken(640);
    broken(768);
}
