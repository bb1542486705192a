/* Counts what is about entry numbers, the length of an image and the start. */
#include "cover.h"
#include "stored.h"

/* The table that a step through an image begins with. */
static struct table before;

bool cover_unlike(uint32_t entry)
{
    for (int i = 0; i < 4; i++)
        for (int j = 0; j < i; j++)
            if ((entry >> 8 * i & 0xFF) == (entry >> 8 * j & 0xFF))
                return false;
    return true;
}

void cover_entry_taken(const struct table *k)
{
    uint32_t number = 0, last = 0;
    before = *k;
    for (uint32_t tid = 1; tid <= k->used; tid++) {
        const struct task *t = &k->task[tid];
        if (t->entry == 0)
            continue;
        number++;
        last = tid;
        MARK(ENTRY_IS_ACTIVE + t->state - STATE_ACTIVE);
        MARK_IF(t->result.kind != RESULT_NOTHING, ENTRY_RESULT);
        for (uint32_t other = 1; other < tid; other++)
            MARK_IF(k->task[other].entry == t->entry, ENTRY_SAME);
    }
    MARK_IF(number == 0, ENTRY_NONE);
    MARK_IF(number == 1, last == 1 ? ENTRY_FIRST : ENTRY_ALONE);
    MARK_IF(number == TASKS, ENTRY_ALL);
}

static void count_made(const struct table *k, uint32_t entry)
{
    MARK_IF(entry == 0, ENTRY_ZERO);
    MARK_IF(entry == 1, ENTRY_ONE);
    MARK_IF(entry > 1 && entry <= UINT8_MAX, ENTRY_BYTE);
    MARK_IF(entry > UINT8_MAX && entry <= INT32_MAX, ENTRY_FAR);
    MARK_IF(entry > INT32_MAX, ENTRY_NEGATIVE);
    MARK_IF(cover_unlike(entry), ENTRY_BYTES);
    MARK_IF(k->used == TASKS && entry != 0, ENTRY_LAST);
    MARK_IF(before.task[before.active].entry != entry, ENTRY_OTHER);
}

/* What a step through an image leaves to be stored. */
void cover_entry_left(const struct table *k, struct request q,
                      uint32_t verdict)
{
    uint32_t entry = (uint32_t)q.arg[1];
    for (uint32_t tid = 1; tid <= before.used; tid++) {
        const struct task *t = &k->task[tid], *old = &before.task[tid];
        if (t->entry == 0)
            continue;
        MARK_IF(verdict != 0, ENTRY_REFUSED);
        MARK_IF(t->state != old->state,
                ENTRY_TO_ACTIVE + t->state - STATE_ACTIVE);
        MARK_IF(old->state == STATE_RECEIVE_BLOCKED &&
                k->task[old->waits_for].state == STATE_EXITED, ENTRY_LET_GO);
    }
    if (verdict != 0 || q.kind != KIND_CREATE)
        return;
    if (k->used > before.used)
        count_made(k, entry);
    else if (entry != 0)
        MARK(q.arg[0] < 0 || q.arg[0] >= PRIORITIES ? ENTRY_PRIORITY
                                                    : ENTRY_FULL);
}

/* Is the image good but for entries where no task is? */
bool cover_entry_only(const uint8_t *image)
{
    static struct table k;
    uint8_t copy[IMAGE_BYTES];
    bool any = false;
    memcpy(copy, image, sizeof copy);
    for (uint32_t i = 0; i < IMAGE_BYTES; i += SLOT_BYTES) {
        if (copy[i + AT_STATE] != STATE_UNUSED)
            continue;
        any = any || get32(copy + i + AT_ENTRY) != 0;
        put32(copy + i + AT_ENTRY, 0);
    }
    return any && table_read(&k, cover_edition, copy);
}

/* An image refused by 2, and what else would have refused the step. */
void cover_entry_bad(const uint8_t *image, struct request q)
{
    uint32_t seen = 0, tasks = 0;
    bool active = false;
    if (!cover_entry_only(image))
        return;
    for (uint32_t i = 0; i < IMAGE_BYTES; i += SLOT_BYTES) {
        tasks += image[i] != STATE_UNUSED;
        active = active || image[i] == STATE_ACTIVE;
        if (image[i] == STATE_UNUSED)
            seen |= get32(image + i + AT_ENTRY);
    }
    for (uint32_t i = 0; i < 4; i++)
        MARK_IF((seen & ~(0xFFu << 8 * i)) == 0, UNUSED_20 + i);
    MARK_IF(get32(image + tasks * SLOT_BYTES + AT_ENTRY) != 0, UNUSED_FIRST);
    MARK_IF(get32(image + IMAGE_BYTES - 4) != 0, UNUSED_LAST);
    if (q.kind < KIND_CREATE || q.kind > KIND_OWN_WRITE)
        MARK(UNUSED_3);
    else if (!active && q.kind != KIND_EVENT)
        MARK(UNUSED_4);
    else if (q.kind == KIND_EVENT && (q.arg[0] < 0 || q.arg[0] >= EVENTS))
        MARK(UNUSED_8);
    else if (q.kind == KIND_OWN_WRITE &&
             ((q.arg[0] | q.arg[1]) & ~0xFF) != 0)
        MARK(UNUSED_9);
}

void cover_wrong(enum cover_path first, uint64_t length)
{
    static const uint64_t wrong[] = {0, 639, 641, 767, 769};
    for (int i = 0; i < 5; i++)
        MARK_IF(length == wrong[i], first + i);
}

/* A step whose image is not as long as it should be. */
void cover_image(const uint8_t *image, uint64_t length, uint64_t areas)
{
    bool old = length == OLD_IMAGE_BYTES;
    if (areas != AREAS_BYTES) {
        MARK_IF(old, IMAGE_OLD_1);
        return;
    }
    cover_wrong(IMAGE_0, length);
    MARK_IF(old, IMAGE_OLD);
    MARK_IF(old && cover_would(image, true) == 0, IMAGE_OLD_GOOD);
}

void cover_started(uint32_t edition, uint32_t priority, uint32_t entry,
                   uint64_t length)
{
    cover_started_by(edition, priority, length);
    if (!edition_is_good(edition))
        return;
    if (priority >= PRIORITIES) {
        MARK_IF(entry != 0, START_6_ENTRY);
        MARK_IF(length == OLD_IMAGE_BYTES, START_6_OLD);
    } else if (length != IMAGE_BYTES) {
        cover_wrong(START_7_0, length);
        MARK_IF(length == OLD_IMAGE_BYTES, START_7_OLD);
    } else {
        MARK(entry == 0 ? START_ENTRY_ZERO : START_ENTRY);
        MARK_IF(cover_unlike(entry), START_ENTRY_BYTES);
        MARK_IF(entry > INT32_MAX, START_ENTRY_NEGATIVE);
    }
}
