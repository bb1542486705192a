/* Counts conversions. */
#include "cover.h"
#include "stored.h"

/* The last conversion that was made. */
static struct {
    uint64_t from_length, to_length;
    uint8_t from[IMAGE_BYTES], to[IMAGE_BYTES];
} last;

/* How many tasks of a new image have an entry, the slot of the last of them,
 * and all their entries together. Only what is in slots of tasks counts. */
struct entries {
    uint32_t number, slot, bits;
};

static struct entries entries_of(const uint8_t *image)
{
    struct entries e = {0, 0, 0};
    for (uint32_t i = 0; i < TASKS; i++) {
        const uint8_t *b = image + i * SLOT_BYTES;
        if (b[AT_STATE] == STATE_UNUSED || get32(b + AT_ENTRY) == 0)
            continue;
        e.number++;
        e.slot = i;
        e.bits |= get32(b + AT_ENTRY);
    }
    return e;
}

/* Either form is looked at through the old one's records, which both have. */
static void count_made(enum cover_path first, const uint8_t *image,
                       uint32_t slot_bytes)
{
    uint32_t number = 0, active = 0;
    MARK(first);
    for (uint32_t i = 0; i < TASKS; i++) {
        const uint8_t *b = image + i * slot_bytes;
        if (b[AT_STATE] == STATE_UNUSED)
            break;
        number++;
        active += b[AT_STATE] == STATE_ACTIVE;
        MARK(first + b[AT_STATE]);
        MARK_IF(b[AT_CUT] == 1, first + (UP_CUT - UP));
        MARK_IF(b[AT_RESULT] == RESULT_FAULT, first + (UP_FAULT - UP));
    }
    MARK_IF(number == 1, first + (UP_ONE - UP));
    MARK_IF(number == TASKS, first + (UP_FULL - UP));
    MARK_IF(active == 0, first + (UP_IDLE - UP));
}

/* Does this one undo the one before? The path is that of the way it ends. */
static void count_back(enum cover_path first, const uint8_t *image,
                       uint64_t image_length, const uint8_t *out,
                       uint64_t out_length)
{
    MARK_IF(image_length == last.to_length && out_length == last.from_length &&
            memcmp(image, last.to, image_length) == 0 &&
            memcmp(out, last.from, out_length) == 0,
            first + (UP_BACK - UP));
    last.from_length = image_length;
    last.to_length = out_length;
    memcpy(last.from, image, image_length);
    memcpy(last.to, out, out_length);
}

bool cover_asking;

static uint64_t form(bool old)
{
    return old ? OLD_IMAGE_BYTES : IMAGE_BYTES;
}

/* What would be said of an image of this form, if it were to go into the other
 * and there were room for it. */
uint32_t cover_would(const uint8_t *image, bool old)
{
    static uint8_t other[IMAGE_BYTES];
    bool before = cover_asking;
    uint32_t refusal;
    cover_asking = true;
    refusal = peer_convert(cover_edition, image, form(old), other, form(!old));
    cover_asking = before;
    return refusal;
}

/* Refused by 7: which of the lengths was wrong, and what else was. */
static void count_lengths(const uint8_t *image, uint64_t image_length,
                          uint64_t out_length)
{
    bool old = image_length == OLD_IMAGE_BYTES;
    bool to_old = out_length == OLD_IMAGE_BYTES;
    uint32_t refusal = 0;
    if (old || image_length == IMAGE_BYTES) {
        cover_wrong(old ? OLD_TO_0 : NEW_TO_0, out_length);
        refusal = cover_would(image, old);
    } else if (to_old || out_length == IMAGE_BYTES) {
        cover_wrong(to_old ? TO_OLD_0 : TO_NEW_0, image_length);
    } else {
        MARK(CONVERT_NEITHER);
    }
    MARK_IF(refusal == REFUSED_TABLE, old ? CONVERT_7_2_OLD : CONVERT_7_2_NEW);
    MARK_IF(refusal == REFUSED_ENTRY, CONVERT_7_ENTRY);
}

/* Refused by 2: the rule is the one asked last, so it is counted first. */
static void count_broken(const uint8_t *image, enum cover_way way)
{
    bool down = way == WAY_DOWN, new = down || way == WAY_NEW_NEW;
    struct entries e = {0, 0, 0};
    cover_ways[cover_rule][way]++;
    if (new)
        e = entries_of(image);
    MARK_IF(e.number == 0, CONVERT_2_UP + way);
    MARK_IF(e.number > 0, down ? CONVERT_2_11 : CONVERT_2_KEPT);
    MARK_IF(e.number == 1 && e.slot == 0,
            down ? CONVERT_2_11_FIRST : CONVERT_2_KEPT_FIRST);
    if (!new || !cover_entry_only(image))
        return;
    if (e.number == 0)
        MARK(down ? CONVERT_2_UNUSED : CONVERT_2_SAME_UNUSED);
    else
        MARK(down ? CONVERT_2_UNUSED_11 : CONVERT_2_UNUSED_KEPT);
}

/* The entries of a good new image, refused by 11 or kept. */
static void count_entries(enum cover_path first, const uint8_t *image)
{
    struct entries e = entries_of(image);
    if (e.number == 0)
        return;
    for (uint32_t i = 0; i < 4; i++)
        MARK_IF((e.bits & ~(0xFFu << 8 * i)) == 0,
                first + (KEPT_20 - KEPT_ACTIVE) + i);
    MARK_IF(e.number > 1, first + (KEPT_SEVERAL - KEPT_ACTIVE));
    MARK_IF(e.number == TASKS, first + (KEPT_ALL - KEPT_ACTIVE));
    if (e.number != 1)
        return;
    MARK(first + image[e.slot * SLOT_BYTES] - STATE_ACTIVE);
    MARK_IF(e.slot == 0, first + (KEPT_FIRST - KEPT_ACTIVE));
    MARK_IF(e.slot == TASKS - 1, first + (KEPT_LAST - KEPT_ACTIVE));
}

void cover_converted(const uint8_t *image, uint64_t image_length,
                     const uint8_t *out, uint64_t out_length,
                     uint32_t refusal)
{
    bool old = image_length == OLD_IMAGE_BYTES;
    enum cover_way way = image_length == out_length
                         ? old ? WAY_OLD_OLD : WAY_NEW_NEW
                         : old ? WAY_UP : WAY_DOWN;
    enum cover_path first = UP + way * (DOWN - UP);
    if (cover_asking || refusal == REFUSED_EDITION)
        return;
    if (refusal == REFUSED_IMAGE)
        count_lengths(image, image_length, out_length);
    else if (refusal == REFUSED_TABLE)
        count_broken(image, way);
    else if (refusal == REFUSED_ENTRY)
        count_entries(CONVERT_11_ACTIVE, image);
    else {
        count_made(first, image, old ? OLD_SLOT_BYTES : SLOT_BYTES);
        count_back(first, image, image_length, out, out_length);
        if (way == WAY_NEW_NEW) {
            MARK_IF(entries_of(image).number == 0, KEPT_NONE);
            count_entries(KEPT_ACTIVE, image);
        }
    }
}
