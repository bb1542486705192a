/* Worked cases of editions and of waiters, by hand from request P7; and the
 * start. */
#include <string.h>

#include "kernel.h"
#include "selftest.h"
#include "stored.h"

#define COUNT(list) (sizeof(list) / sizeof(list)[0])

static struct table k;
static uint8_t image[IMAGE_BYTES], areas[AREAS_BYTES];

/* Values are of no copy here, so that a number and a kind say all. */
enum { NONE = INT32_MIN };

static void expect_step(int32_t kind, int32_t a, int32_t b, uint32_t next,
                        int32_t number, const char *what)
{
    struct request q = {kind, {a, b, 1, 2, 3}};
    struct answer got = table_step(&k, areas, &q);
    uint32_t sort = number == NONE ? RESULT_NOTHING
                    : number < 0 ? RESULT_FAULT : RESULT_VALUE;
    expect(got.verdict == 0 && got.next == next && got.result.kind == sort &&
           got.result.number == (number == NONE ? 0 : number) &&
           got.result.from == 0 && !got.result.cut, what);
}

/* Tid 1 of priority 16, and so many more of this priority, who are ready. */
static void tasks(uint32_t edition, uint32_t more, int32_t priority)
{
    expect(table_start(&k, edition, 16, 0) == 0, "start by an edition");
    for (uint32_t tid = 2; tid < 2 + more; tid++)
        expect_step(KIND_CREATE, priority, 0, 1, (int32_t)tid, "tasks");
}

/* They come in the order 1, 3, 4, 2; tid 1 is better than the others. */
static void all_woken(int32_t data, int32_t shown)
{
    tasks(EDITION_CROWD, 3, 20);
    expect_step(KIND_AWAIT_EVENT, 7, 0, 2, NONE, "tid 1 waits");
    expect_step(KIND_YIELD, 0, 0, 3, NONE, "tid 2 goes last");
    expect_step(KIND_AWAIT_EVENT, 7, 0, 4, NONE, "tid 3 waits");
    expect_step(KIND_AWAIT_EVENT, 7, 0, 2, 0, "tid 4 waits");
    expect_step(KIND_AWAIT_EVENT, 64, 0, 2, -1, "event 64");
    expect_step(KIND_AWAIT_EVENT, 7, 0, 0, NONE, "tid 2 waits");
    expect_step(KIND_EVENT, 6, 5, 0, NONE, "another event");
    expect_step(KIND_EVENT, 7, data, 1, shown, "tid 1 is back");
    expect_step(KIND_EVENT, 7, 77, 1, NONE, "nobody waits any more");
    expect_step(KIND_AWAIT_EVENT, 7, 0, 3, shown, "tid 3 is back");
    expect_step(KIND_YIELD, 0, 0, 4, shown, "tid 4 is back");
    expect_step(KIND_AWAIT_EVENT, 7, 0, 2, shown, "tid 2 is back");
    expect_step(KIND_YIELD, 0, 0, 3, 0, "each is shown it once");
    expect_step(KIND_EVENT, 7, 1, 1, 1, "two wait again");
    expect_step(KIND_EXIT, 0, 0, 2, 0, "behind who was ready");
    expect_step(KIND_YIELD, 0, 0, 4, 1, "tid 4 before the interrupted");
    expect_step(KIND_YIELD, 0, 0, 3, NONE, "the interrupted");
}

/* The same requests where one alone may wait. */
static void one_woken(void)
{
    tasks(EDITION_SOLE, 3, 20);
    expect_step(KIND_AWAIT_EVENT, 7, 0, 2, NONE, "tid 1 waits");
    expect_step(KIND_AWAIT_EVENT, 7, 0, 3, NONE, "tid 2 may not");
    expect_step(KIND_AWAIT_EVENT, 7, 0, 4, NONE, "tid 3 may not");
    expect_step(KIND_AWAIT_EVENT, 8, 0, 2, -3, "tid 2 is told");
    expect_step(KIND_YIELD, 0, 0, 3, -3, "tid 3 is told");
    expect_step(KIND_EVENT, 7, 9, 1, 9, "tid 1 is back");
    expect_step(KIND_AWAIT_EVENT, 8, 0, 1, -3, "tid 4 waits there");
    expect_step(KIND_AWAIT_EVENT, 7, 0, 2, 0, "tid 1 waits again");
}

/* Those woken come before the interrupted task of their priority, and it before
 * one that is woken of a worse priority. */
static void interrupted(void)
{
    tasks(EDITION_CROWD, 3, 16 + 1);
    expect_step(KIND_CREATE, 0, 0, 5, NONE, "tid 5 of priority 0");
    expect_step(KIND_AWAIT_EVENT, 0, 0, 1, 5, "tid 5 waits");
    expect_step(KIND_AWAIT_EVENT, 63, 0, 2, NONE, "tid 1 waits");
    expect_step(KIND_AWAIT_EVENT, 63, 0, 3, NONE, "tid 2 waits");
    expect_step(KIND_EVENT, 63, 0, 1, 0, "tid 1 is better");
    expect_step(KIND_AWAIT_EVENT, 0, 0, 4, NONE, "who was ready");
    expect_step(KIND_YIELD, 0, 0, 2, 0, "who was woken");
    expect_step(KIND_YIELD, 0, 0, 3, NONE, "who was interrupted");
    expect_step(KIND_EVENT, 0, -1, 5, -2, "the best came first");
    expect_step(KIND_EXIT, 0, 0, 1, -2, "then the next one");
}

/* ---- images ---- */

static uint32_t through(uint32_t edition, int32_t kind, int32_t a, int32_t b,
                        const uint8_t *want)
{
    struct request q = {kind, {a, b}};
    uint8_t record[RECORD_BYTES], answer[ANSWER_BYTES];
    uint32_t verdict;
    request_write(&q, record);
    memset(answer, 0xAA, sizeof answer);
    verdict = peer_step(edition, image, sizeof image, areas, sizeof areas,
                        record, sizeof record, answer, sizeof answer);
    expect(get32(answer) == verdict, "verdict in the answer");
    for (int i = 0; want && i < 5; i++)
        expect(get32(answer + 4 + 4 * i) == want[i], "rest of the answer");
    return verdict;
}

/* Tid 1 is active; 2, 3 and 4 wait for event 5, in the order 4, 2, 3, of the
 * priorities 9, 9 and 20. */
static const uint8_t waiters[4 * SLOT_BYTES] = {
    1, 9, 0, 0, 0, 0, 0, 0, 0, 0, 0, 0, 0, 0, 0, 0, 0, 0, 0, 0, 0, 0, 0, 0,
    6, 9, 1, 1, 5, 0, 0, 0, 0, 0, 0, 0, 0, 0, 0, 0, 0, 0, 0, 0, 0, 0, 0, 0,
    6, 9, 2, 2, 5, 0, 0, 0, 0, 0, 0, 0, 0, 0, 0, 0, 0, 0, 0, 0, 0, 0, 0, 0,
    6, 20, 1, 0, 5, 0, 0, 0, 0, 0, 0, 0, 0, 0, 0, 0, 0, 0, 0, 0, 7, 0, 0, 0};

/* After event 5 with data 258. */
static const uint8_t woken[4 * SLOT_BYTES] = {
    2, 9, 0, 1, 0, 0, 0, 0, 0, 0, 0, 0, 0, 0, 0, 0, 0, 0, 0, 0, 0, 0, 0, 0,
    1, 9, 1, 0, 0, 0, 0, 0, 0, 0, 0, 0, 0, 0, 0, 0, 0, 0, 0, 0, 0, 0, 0, 0,
    2, 9, 2, 0, 0, 1, 0, 0, 0, 0, 0, 0, 0, 0, 0, 0, 2, 1, 0, 0, 0, 0, 0, 0,
    2, 20, 1, 0, 0, 1, 0, 0, 0, 0, 0, 0, 0, 0, 0, 0, 2, 1, 0, 0, 7, 0, 0, 0};

static void set_image(const uint8_t *records)
{
    memset(image, 0, sizeof image);
    memcpy(image, records, 4 * SLOT_BYTES);
}

static void records(void)
{
    static const uint8_t fifth[5] = {2, 0, 0, 0, 0};
    set_image(waiters);
    expect(through(EDITION_SOLE, KIND_EVENT, 5, 258, NULL) == 2, "three by 1");
    expect(memcmp(image, waiters, sizeof waiters) == 0, "left as it was");
    expect(through(EDITION_CROWD, KIND_EVENT, 5, 258, NULL) == 0, "and by 2");
    expect(memcmp(image, woken, sizeof woken) == 0, "their records");
    set_image(waiters);
    expect(through(EDITION_CROWD, KIND_CREATE, 3, 0, NULL) == 0, "a fifth");
    expect(through(EDITION_CROWD, KIND_AWAIT_EVENT, 5, 0, NULL) == 0, "waits");
    expect(image[4 * SLOT_BYTES] == 6 && image[4 * SLOT_BYTES + 3] == 3 &&
           image[4 * SLOT_BYTES + 4] == 5, "behind the three");
    set_image(woken);
    expect(through(EDITION_SOLE, KIND_OWN_WRITE, 1, 1, fifth) == 0, "by 1");
}

/* Places of three waiters, which are good in any order and in no other way. */
static void places(void)
{
    for (uint32_t i = 0; i < 4 * 4 * 4; i++) {
        uint32_t a = i % 4, b = i / 4 % 4, c = i / 16;
        bool good = a < 3 && b < 3 && c < 3 && a != b && b != c && a != c;
        set_image(waiters);
        image[SLOT_BYTES + AT_PLACE] = (uint8_t)a;
        image[2 * SLOT_BYTES + AT_PLACE] = (uint8_t)b;
        image[3 * SLOT_BYTES + AT_PLACE] = (uint8_t)c;
        expect(table_read(&k, EDITION_CROWD, image) == good, "places by 2");
        expect(!table_read(&k, EDITION_SOLE, image), "places by 1");
        image[SLOT_BYTES + AT_WAITS_FOR] = 6;
        image[2 * SLOT_BYTES + AT_WAITS_FOR] = 7;
        good = a == 0 && b == 0 && c == 0;
        expect(table_read(&k, EDITION_CROWD, image) == good, "alone by 2");
        expect(table_read(&k, EDITION_SOLE, image) == good, "alone by 1");
    }
    memset(image, 0, sizeof image); /* all 32 wait, the last one first */
    for (uint32_t i = 0; i < TASKS; i++) {
        image[i * SLOT_BYTES + AT_STATE] = STATE_EVENT_BLOCKED;
        image[i * SLOT_BYTES + AT_PARENT] = i > 0;
        image[i * SLOT_BYTES + AT_PLACE] = (uint8_t)(TASKS - 1 - i);
    }
    expect(table_read(&k, EDITION_CROWD, image), "32 of event 0");
    expect_step(KIND_EVENT, 0, 3, 32, 3, "the last one runs");
    for (uint32_t tid = TASKS - 1; tid > 0; tid--)
        expect_step(KIND_EXIT, 0, 0, tid, 3, "and each of the others");
}

/* ---- refusal 12 ---- */

static const uint32_t wrong[] = {0, 3, UINT32_MAX, 257, 65537, 1u << 31};

/* Behind 10, before 5, 7, 1, 2, 3, 4, 8 and 9; only the answer is written. */
static void no_edition(void)
{
    static const uint8_t zeros[5] = {0};
    uint8_t record[RECORD_BYTES] = {12}, answer[ANSWER_BYTES];
    uint8_t before[IMAGE_BYTES];
    for (unsigned i = 0; i < COUNT(wrong); i++) {
        set_image(waiters);
        expect(through(wrong[i], KIND_EVENT, 5, 9, zeros) == 12, "alone");
        expect(through(wrong[i], KIND_EVENT, 64, 9, zeros) == 12, "and 8");
        expect(through(wrong[i], KIND_OWN_WRITE, 256, 9, zeros) == 12, "and 9");
        expect(through(wrong[i], 12, 0, 0, zeros) == 12, "and 3");
        expect(memcmp(image, waiters, sizeof waiters) == 0, "nothing done");
        image[0] = 8;
        memcpy(before, image, sizeof image);
        expect(through(wrong[i], 12, 0, 0, zeros) == 12, "and 2");
        for (uint64_t which = 0; which < 8; which++) {
            memset(answer, 0xAA, sizeof answer);
            expect(peer_step(wrong[i], image, IMAGE_BYTES - (which & 1),
                             areas, AREAS_BYTES - (which >> 1 & 1), record,
                             RECORD_BYTES - (which >> 2 & 1), answer,
                             ANSWER_BYTES) == 12, "and 5, 7 and 1");
            expect(answer[0] == 12 && answer[23] == 0, "an answer to it");
            expect(peer_step(wrong[i], image, IMAGE_BYTES - (which & 1),
                             areas, AREAS_BYTES, record, RECORD_BYTES,
                             answer, ANSWER_BYTES - 1) == 10, "10 before it");
        }
        expect(memcmp(image, before, sizeof image) == 0, "nothing written");
    }
}

/* Before 6 and 7 of a start; before 7, 2 and 11 of a conversion. */
static void no_edition_elsewhere(void)
{
    uint8_t out[IMAGE_BYTES], before[IMAGE_BYTES];
    memset(out, 0xA5, sizeof out);
    memcpy(before, out, sizeof out);
    set_image(waiters);
    for (unsigned i = 0; i < COUNT(wrong); i++) {
        uint32_t w = wrong[i];
        expect(table_start(&k, w, 16, 0) == 12 && k.used == 0, "a table");
        expect(peer_start(w, 16, 0, out, 768) == 12, "a start");
        expect(peer_start(w, 32, 0, out, 768) == 12, "and 6");
        expect(peer_start(w, 16, 0, out, 640) == 12, "and 7");
        expect(peer_convert(w, image, 768, out, 768) == 12, "a conversion");
        expect(peer_convert(w, image, 768, out, 640) == 12, "and 11");
        expect(peer_convert(w, image, 640, out, 768) == 12, "and 2");
        expect(peer_convert(w, image, 0, out, 1) == 12, "and 7");
    }
    expect(memcmp(out, before, sizeof out) == 0, "no byte");
}

/* ---- conversions ---- */

static void converted(void)
{
    uint8_t out[IMAGE_BYTES], old[OLD_IMAGE_BYTES];
    set_image(waiters);
    expect(peer_convert(EDITION_SOLE, image, 768, out, 768) == 2, "by 1");
    expect(peer_convert(EDITION_SOLE, image, 768, out, 640) == 2, "2, not 11");
    expect(peer_convert(EDITION_CROWD, image, 768, out, 640) == 11, "entry");
    expect(peer_convert(EDITION_CROWD, image, 768, out, 768) == 0, "by 2");
    expect(memcmp(image, out, 768) == 0, "the same");
    put32(image + 3 * SLOT_BYTES + AT_ENTRY, 0);
    expect(peer_convert(EDITION_CROWD, image, 768, old, 640) == 0, "to old");
    expect(old[23] == 1 && old[43] == 2 && old[63] == 0, "places in old");
    expect(peer_convert(EDITION_SOLE, old, 640, out, 768) == 2, "old by 1");
    expect(peer_convert(EDITION_SOLE, old, 640, out, 640) == 2, "and to old");
    expect(peer_convert(EDITION_CROWD, old, 640, out, 768) == 0, "old by 2");
    expect(memcmp(image, out, 768) == 0, "back again");
    old[43] = 3;
    expect(peer_convert(EDITION_CROWD, old, 640, out, 768) == 2, "a gap");
}

/* 6 before 7, and no byte where either refuses: readings 35 to 39. The image is
 * the same for both editions. */
void starting(void)
{
    uint8_t fresh[IMAGE_BYTES + 1], want[IMAGE_BYTES] = {1, 31};
    struct request q = {KIND_MY_TID, {0}};
    struct answer a;
    for (uint32_t edition = 1; edition <= 2; edition++) {
        memset(fresh, 0xAA, sizeof fresh);
        expect(peer_start(edition, 16, 0, fresh, 769) == 7, "769 bytes");
        expect(peer_start(edition, 16, 0, fresh, 767) == 7, "767 bytes");
        expect(peer_start(edition, 32, 0, fresh, 767) == 6, "6 before 7");
        expect(peer_start(edition, 32, 0, fresh, 768) == 6, "start at 32");
        expect(peer_start(edition, UINT32_MAX, 0, fresh, 768) == 6, "at -1");
        expect(table_start(&k, edition, 32, 0) == 6, "table at 32");
        table_write(&k, fresh);
        for (int i = 0; i <= IMAGE_BYTES; i++)
            expect(fresh[i] == 0xAA, "start refused, nothing written");
        a = table_step(&k, areas, &q);
        expect(a.verdict == 2 && a.next == 0, "step of no task");
        expect(peer_start(edition, 31, 0, fresh, 768) == 0, "start at 31");
        expect(memcmp(fresh, want, 768) == 0, "start at 31, image");
        expect(fresh[768] == 0xAA, "start, past the image");
        memset(fresh, 0, 768);
        expect(!table_read(&k, edition, fresh), "no task breaks the rules");
    }
}

void event_cases(void)
{
    all_woken(9, 9);
    all_woken(0, 0);
    all_woken(INT32_MAX, INT32_MAX);
    all_woken(-5, -2);
    one_woken();
    interrupted();
    records();
    places();
    no_edition();
    no_edition_elsewhere();
    converted();
}
