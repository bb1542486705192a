/* Counts which edition was given, with what else was right or wrong. */
#include "cover.h"
#include "stored.h"

uint32_t cover_edition = EDITION_SOLE;
bool cover_is_edition = true;

/* Is the image good by this edition? Nothing of it is counted. */
static bool takes(uint32_t edition, const uint8_t *image)
{
    static struct table k;
    unsigned rule = cover_rule, state = cover_state;
    bool good = table_read(&k, edition, image);
    cover_rule = rule;
    cover_state = state;
    return good;
}

static void set_edition(uint32_t edition)
{
    cover_is_edition = edition_is_good(edition);
    cover_edition = cover_is_edition ? edition : EDITION_SOLE;
}

/* Words that are no edition, in the order of WORD_PATHS. */
static void count_word(enum cover_path first, uint32_t edition)
{
    static const uint32_t word[] = {0, 3, UINT32_MAX, 257, 258, 65537,
                                    1u << 31, (1u << 31) + 1};
    for (uint32_t i = 0; i < 8; i++)
        if (edition == word[i]) {
            MARK(first + i);
            return;
        }
    MARK(first + 8);
}

/* Before anything is asked. */
void cover_given(uint32_t edition, uint64_t answer, uint64_t record,
                 const uint8_t *image, uint64_t image_length, uint64_t areas)
{
    bool more = record != RECORD_BYTES || image_length != IMAGE_BYTES ||
                areas != AREAS_BYTES || !takes(EDITION_CROWD, image);
    set_edition(edition);
    if (answer == ANSWER_BYTES)
        return;
    if (edition_is_good(edition))
        MARK(STEP_R10_1 + (edition - EDITION_SOLE));
    else
        MARK(more ? STEP_10_12_MORE : STEP_10_12);
}

/* A step with all but its edition and its request right. */
static void count_request(uint32_t edition, const uint8_t *image,
                          struct request q)
{
    bool active = false;
    for (uint32_t i = 0; i < IMAGE_BYTES; i += SLOT_BYTES)
        active = active || image[i] == STATE_ACTIVE;
    if (q.kind < KIND_CREATE || q.kind > KIND_OWN_WRITE)
        MARK(STEP_12_3);
    else if (!active && q.kind != KIND_EVENT)
        MARK(STEP_12_4);
    else if (q.kind == KIND_EVENT && (q.arg[0] < 0 || q.arg[0] >= EVENTS))
        MARK(STEP_12_8);
    else if (q.kind == KIND_OWN_WRITE &&
             ((q.arg[0] | q.arg[1]) & ~0xFF) != 0)
        MARK(STEP_12_9);
    else
        count_word(STEP_12_WORD_0, edition);
}

void cover_no_edition(uint32_t edition, const uint8_t *record,
                      uint64_t record_length, const uint8_t *image,
                      uint64_t image_length, uint64_t areas)
{
    bool r5 = record_length != RECORD_BYTES, r7 = image_length != IMAGE_BYTES;
    bool r1 = areas != AREAS_BYTES;
    MARK_IF(r5, STEP_12_5);
    MARK_IF(r7, STEP_12_7);
    MARK_IF(image_length == OLD_IMAGE_BYTES, STEP_12_OLD);
    MARK_IF(r1, STEP_12_1);
    MARK_IF(r5 && r7 && r1, STEP_12_ALL);
    if (r7)
        return;
    MARK_IF(!takes(EDITION_CROWD, image), STEP_12_2);
    MARK_IF(takes(EDITION_CROWD, image) && !takes(EDITION_SOLE, image),
            STEP_12_CROWD);
    if (!r5 && !r1 && takes(EDITION_CROWD, image))
        count_request(edition, image, request_read(record));
}

/* An image refused by 2, and what else would have refused the step. */
void cover_event_bad(const uint8_t *image, struct request q)
{
    uint32_t second = cover_edition - EDITION_SOLE;
    bool sole = second == 0 && takes(EDITION_CROWD, image);
    bool active = false;
    MARK_IF(sole, OTHER_1);
    MARK_IF(!sole, OTHER_NEITHER_1 + second);
    if (!COVER_PLACE)
        return;
    for (uint32_t i = 0; i < IMAGE_BYTES; i += SLOT_BYTES)
        active = active || image[i] == STATE_ACTIVE;
    if (q.kind < KIND_CREATE || q.kind > KIND_OWN_WRITE)
        MARK(PLACE_BAD_3_1 + second);
    else if (!active && q.kind != KIND_EVENT)
        MARK(PLACE_BAD_4_1 + second);
    else if (q.kind == KIND_EVENT && (q.arg[0] < 0 || q.arg[0] >= EVENTS))
        MARK(PLACE_BAD_8_1 + second);
    else if (q.kind == KIND_OWN_WRITE &&
             ((q.arg[0] | q.arg[1]) & ~0xFF) != 0)
        MARK(PLACE_BAD_9_1 + second);
}

/* The verdict of every step but those refused by 10. */
void cover_stepped(uint32_t edition, uint32_t verdict)
{
    static const uint32_t verdicts[] = {0, 1, 2, 3, 4, 5, 7, 8, 9};
    if (!edition_is_good(edition))
        return;
    for (uint32_t i = 0; i < 9; i++)
        MARK_IF(verdict == verdicts[i],
                STEP_OK_1 + 2 * i + (edition - EDITION_SOLE));
}

/* ---- starts ---- */

void cover_started_by(uint32_t edition, uint32_t priority, uint64_t length)
{
    bool r6 = priority >= PRIORITIES, r7 = length != IMAGE_BYTES;
    uint32_t second = edition - EDITION_SOLE;
    if (edition_is_good(edition)) {
        MARK((r6 ? r7 ? START_6_7_1 : START_6_1 : r7 ? START_7_1 : START_OK_1)
             + second);
        return;
    }
    if (!r6 && !r7)
        count_word(START_12_WORD_0, edition);
    else
        MARK(!r6 ? START_12_7 : !r7 ? START_12_6 : START_12_6_7);
    MARK_IF(length == OLD_IMAGE_BYTES, START_12_OLD);
}

/* ---- conversions ---- */

void cover_converting(uint32_t edition)
{
    set_edition(edition);
}

/* What edition 2 would say of two lengths that are taken. */
static uint32_t crowd_says(const uint8_t *image, bool old, bool to_old)
{
    uint32_t refusal;
    cover_edition = EDITION_CROWD;
    refusal = cover_would(image, old);
    return refusal == REFUSED_ENTRY && !to_old ? 0 : refusal;
}

static bool has_crowd(const uint8_t *image, uint32_t slot_bytes)
{
    bool waits[EVENTS] = {false};
    for (uint32_t i = 0; i < TASKS; i++) {
        const uint8_t *b = image + i * slot_bytes;
        if (b[AT_STATE] != STATE_EVENT_BLOCKED || b[AT_WAITS_FOR] >= EVENTS)
            continue;
        if (waits[b[AT_WAITS_FOR]])
            return true;
        waits[b[AT_WAITS_FOR]] = true;
    }
    return false;
}

static void count_refused(uint32_t edition, const uint8_t *image, bool old,
                          bool to_old, bool lengths)
{
    uint32_t refusal;
    if (!lengths) {
        MARK(CONVERT_12_7);
        return;
    }
    refusal = crowd_says(image, old, to_old);
    MARK_IF(refusal == REFUSED_TABLE, CONVERT_12_2);
    MARK_IF(refusal == REFUSED_ENTRY, CONVERT_12_11);
    if (refusal == 0 && has_crowd(image, old ? OLD_SLOT_BYTES : SLOT_BYTES))
        MARK(CONVERT_12_CROWD);
    else if (refusal == 0)
        count_word(CONVERT_12_WORD_0, edition);
}

void cover_converted_by(uint32_t edition, const uint8_t *image,
                        uint64_t image_length, uint64_t out_length,
                        uint32_t refusal)
{
    bool old = image_length == OLD_IMAGE_BYTES;
    bool to_old = out_length == OLD_IMAGE_BYTES, crowd;
    uint32_t second = edition - EDITION_SOLE;
    uint32_t way = old == to_old ? old ? WAY_OLD_OLD : WAY_NEW_NEW
                   : old ? WAY_UP : WAY_DOWN;
    if (cover_asking)
        return;
    if (refusal == REFUSED_EDITION) {
        count_refused(edition, image, old, to_old,
                      (old || image_length == IMAGE_BYTES) &&
                      (to_old || out_length == IMAGE_BYTES));
        return;
    }
    MARK_IF(refusal == REFUSED_IMAGE, CONVERT_R7_1 + second);
    if (refusal == REFUSED_IMAGE)
        return;
    crowd = has_crowd(image, old ? OLD_SLOT_BYTES : SLOT_BYTES);
    MARK_IF(refusal == REFUSED_ENTRY, CONVERT_R11_1 + second);
    MARK_IF(refusal == REFUSED_ENTRY && crowd, CONVERT_11_CROWD);
    MARK_IF(refusal == 0, (second ? MADE_2_UP : MADE_1_UP) + way);
    MARK_IF(refusal == 0 && crowd, MADE_CROWD_UP + way);
    if (refusal != REFUSED_TABLE)
        return;
    MARK((second ? BROKEN_2_UP : BROKEN_1_UP) + way);
    if (second == 1 || !crowd)
        return;
    refusal = crowd_says(image, old, to_old);
    MARK_IF(refusal == 0, BROKEN_CROWD_UP + way);
    MARK_IF(refusal == REFUSED_ENTRY, CONVERT_2_CROWD);
}
