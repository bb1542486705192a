/* Starts: each an edition, a priority, the first task's entry number and the
 * length of the image to start into. */
#include "generate.h"

static void put_start(uint32_t priority, uint32_t entry, uint32_t length)
{
    put_word(given_edition);
    put_word(priority);
    put_word(entry);
    put_word(length);
}

int starts_one(uint32_t edition, uint32_t priority, uint32_t entry,
               uint32_t length)
{
    given_edition = edition;
    put_start(priority, entry, length);
    return 0;
}

/* Bad ones, some of them good to a start that looks at fewer bits of them or
 * takes them as signed. */
static const uint32_t far_priority[] = {
    63, 64, 127, 128, 255, 256, 256 + 16, 65535, 65536, 65536 + 31,
    (1u << 24) + 16, INT32_MAX, 1u << 31, (1u << 31) + 16, UINT32_MAX - 15,
    UINT32_MAX};

/* Good and bad take turns, so that an image left over from the start before
 * shows. Of the lengths 256, 1024 and 8960 share low bits with 768, and 128,
 * 896 and 8832 with 640, which was right before there were entries. An entry
 * may be what would be a bad priority, or a length. */
static void by_edition(uint32_t edition)
{
    static const uint32_t priority[] = {0, 32, 16, 256 + 16, 31, UINT32_MAX,
                                        7, 1u << 31};
    static const uint32_t length[] = {
        0, 1, 20, 24, 128, 256, 639, 640, 641, 644, 764, 767, 768, 769, 772,
        896, 1024, 1280, 1536, 8192, 8832, 8960, LONGEST - 1, LONGEST};
    given_edition = edition;
    for (uint32_t p = 0; p <= 40; p++)
        put_start(p, listed_entry(p), IMAGE_BYTES);
    for (unsigned i = 0; i < COUNT(far_priority); i++)
        put_start(far_priority[i], listed_entry(i), IMAGE_BYTES);
    for (unsigned i = 0; i < COUNT(length); i++)
        for (unsigned j = 0; j < COUNT(priority); j++)
            put_start(priority[j], listed_entry(i + j), length[i]);
    for (uint32_t i = 0; i < ENTRIES; i++)
        for (unsigned j = 0; j < 4; j++)
            put_start(priority[j], listed_entry(i), IMAGE_BYTES);
    for (uint32_t bit = 0; bit < 32; bit++)
        put_start(bit, 1u << bit, IMAGE_BYTES);
    for (unsigned i = 0; i < COUNT(length); i++)
        put_start(16, 0, length[i]);
    put_start(16, IMAGE_BYTES, IMAGE_BYTES);
    put_start(16, IMAGE_BYTES, OLD_IMAGE_BYTES);
}

/* Words that are no edition, alone and with what else may be wrong; between
 * them a start that is made. An entry or a priority may be an edition. */
static void no_editions(void)
{
    static const uint32_t priority[] = {1, 32, 2, 31, UINT32_MAX, 256 + 1};
    static const uint32_t length[] = {IMAGE_BYTES, OLD_IMAGE_BYTES, 0,
                                      IMAGE_BYTES + 1, IMAGE_BYTES};
    for (uint32_t n = 0; n < NO_EDITIONS; n++)
        for (unsigned i = 0; i < COUNT(priority); i++)
            for (unsigned j = 0; j < COUNT(length); j++) {
                given_edition = listed_no_edition(n);
                if (j + 1 == COUNT(length))
                    given_edition = EDITION_SOLE + (n + i) % 2;
                put_start(priority[i], n % 3, length[j]);
            }
    for (uint32_t bit = 0; bit < 32; bit++) {
        given_edition = 1u << bit;
        put_start(EDITION_SOLE, EDITION_CROWD, IMAGE_BYTES);
    }
}

int starts_fixed(void)
{
    by_edition(EDITION_SOLE);
    by_edition(EDITION_CROWD);
    no_editions();
    return 0;
}

static uint32_t some_priority(uint64_t *s)
{
    uint32_t good = below(s, PRIORITIES);
    switch (below(s, 6)) {
    case 0:
        return PRIORITIES + below(s, 16);
    case 1:                      /* one bit too many */
        return good | 1u << (5 + below(s, 27));
    case 2:
        return (uint32_t)draw(s);
    default:
        return good;
    }
}

static uint32_t some_length(uint64_t *s)
{
    switch (below(s, 10)) {
    case 0:
        return IMAGE_BYTES - 4 + below(s, 9);
    case 4:
        return OLD_IMAGE_BYTES - 4 + below(s, 9);
    case 5:
        return OLD_IMAGE_BYTES;
    case 1:                      /* one bit wrong */
        return IMAGE_BYTES ^ 1u << below(s, 14);
    case 2:
        return below(s, 3 * IMAGE_BYTES);
    case 3:
        return below(s, LONGEST + 1);
    default:
        return IMAGE_BYTES;
    }
}

int starts_drawn(uint64_t seed, unsigned long count)
{
    uint64_t s = seed;
    for (unsigned long i = 0; i < count; i++) {
        uint32_t priority = some_priority(&s), entry = some_entry(&s);
        given_edition = some_edition(&s);
        put_start(priority, entry, some_length(&s));
    }
    return 0;
}
