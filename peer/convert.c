/* Images from one of the two forms into one of them; the old form is that
   which has no entry numbers. */
#include "kernel.h"
#include "stored.h"

#include <string.h>
#include "cover.h"

/* How long a stored task is in the form of this length; 0, if it is none's. */
static uint32_t slot_of(uint64_t image_len)
{
    return image_len == IMAGE_BYTES ? SLOT_BYTES
           : image_len == OLD_IMAGE_BYTES ? OLD_SLOT_BYTES : 0;
}

/* Copies the fields that both forms have; what only the new one has is zero
   where it was not there and is left out where it has no room. */
static void records_copy(const uint8_t *from, uint32_t from_slot,
                         uint8_t *to, uint32_t to_slot)
{
    uint32_t both = from_slot < to_slot ? from_slot : to_slot;

    memset(to, 0, TASKS * to_slot);
    for (uint32_t i = 0; i < TASKS; i++)
        memcpy(to + i * to_slot, from + i * from_slot, both);
}

static bool has_entry(const struct table *k)
{
    for (uint32_t tid = 1; tid <= k->used; tid++)
        if (k->task[tid].entry != 0)
            return true;
    return false;
}

/* The rules are those of one table, whichever form it comes in; so they are
   asked of the newest form alone, and out is not touched before. */
static uint32_t convert(uint32_t edition, const uint8_t *image,
                        uint32_t image_slot, uint8_t *out, uint32_t out_slot)
{
    uint8_t newest[IMAGE_BYTES];
    struct table k;

    records_copy(image, image_slot, newest, SLOT_BYTES);
    if (!table_read(&k, edition, newest))
        return REFUSED_TABLE;
    if (out_slot == OLD_SLOT_BYTES && has_entry(&k))
        return REFUSED_ENTRY; /* the old form has no room for it */
    records_copy(newest, SLOT_BYTES, out, out_slot);
    return 0;
}

uint32_t peer_convert(uint32_t edition, const uint8_t *image,
                      uint64_t image_len, uint8_t *out, uint64_t out_len)
{
    uint32_t image_slot = slot_of(image_len), out_slot = slot_of(out_len);
    uint32_t refusal;

    MARK_CONVERTING(edition);
    if (!edition_is_good(edition))
        refusal = REFUSED_EDITION;
    else if (image_slot == 0 || out_slot == 0)
        refusal = REFUSED_IMAGE;
    else
        refusal = convert(edition, image, image_slot, out, out_slot);
    MARK_CONVERTED(image, image_len, out, out_len, refusal);
    MARK_CONVERTED_BY(edition, image, image_len, out_len, refusal);
    return refusal;
}
