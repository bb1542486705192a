/* Words given as an edition, and a fixed list of those that are none: what may
 * be wrong beside them must not show. */
#include <string.h>

#include "images.h"
#include "pick.h"

/* Most are an edition to a program that looks at fewer bits, or at bits of the
 * word alone. */
uint32_t listed_no_edition(uint32_t n)
{
    static const uint32_t word[NO_EDITIONS] = {
        0, 3, UINT32_MAX, 257, 65537, 1u << 31, 258, (1u << 31) + 1, 256, 4,
        (1u << 31) + 2, UINT32_MAX - 1, 65538, 0x01000000, 0x02000000,
        INT32_MAX, 12, 0x01000001};
    return word[n % NO_EDITIONS];
}

uint32_t some_no_edition(uint64_t *s)
{
    uint32_t good = EDITION_SOLE + below(s, 2), bit = 2 + below(s, 30);
    uint32_t n = below(s, NO_EDITIONS);
    switch (below(s, 4)) {
    case 0:                      /* one bit too many */
        return good | 1u << bit;
    case 1:
        return 3 + (uint32_t)(draw(s) >> 33);
    default:
        return listed_no_edition(n);
    }
}

uint32_t some_edition(uint64_t *s)
{
    uint32_t good = EDITION_SOLE + below(s, 2);
    return chance(s, 90) ? good : some_no_edition(s);
}

/* Mostly the same; an image of the other may be good by this edition too. */
uint32_t image_edition(uint64_t *s, uint32_t given)
{
    uint32_t any = EDITION_SOLE + below(s, 2);
    return edition_is_good(given) && chance(s, 85) ? given : any;
}

/* ---- cases ---- */

static uint8_t image[IMAGE_BYTES];

/* Good by both, good by the second alone, broken by both, idle. */
static void content(uint32_t which)
{
    image_mixed(image);
    if (which % 4 == 1) {
        slot(image, 14)[AT_WAITS_FOR] = slot(image, 4)[AT_WAITS_FOR];
        slot(image, 14)[AT_PLACE] = 1;
    }
    if (which % 4 == 2)
        slot(image, 9)[AT_PRIORITY] = PRIORITIES;
    if (which % 4 == 3) {
        image_tasks(image, MIXED);
        remake(slot(image, 4), STATE_EVENT_BLOCKED);
        slot(image, 4)[AT_WAITS_FOR] = 4;
    }
}

/* Requests that would be taken and would change something, or be refused by 3,
 * 4, 8 and 9. */
static const struct request requests[] = {
    {KIND_EVENT, {4, 7}}, {12, {0}}, {KIND_EVENT, {64, 1}},
    {KIND_OWN_WRITE, {256, 0}}, {KIND_OWN_WRITE, {0, 65}}, {KIND_EXIT, {0}},
    {0, {0}}, {KIND_YIELD, {0}}, {KIND_AWAIT_EVENT, {4}}};

/* Each word with each content and each request; then with every choice of wrong
 * lengths, that of the answer among them. */
int editions_cases(void)
{
    static const uint32_t wrong[] = {OLD_IMAGE_BYTES, AREAS_BYTES - 1,
                                     RECORD_BYTES - 4};
    static const uint32_t answer[] = {20, 25, 0, 48, 23};
    uint32_t turn = 0;
    for (uint32_t n = 0; n < NO_EDITIONS; n++) {
        given_edition = listed_no_edition(n);
        for (uint32_t i = 0; i < 4 * COUNT(requests); i++) {
            if (n >= 6 && i % 3 != n % 3)
                continue;
            content(i % 4);
            put_case(image, AREAS_BYTES, &requests[i / 4]);
        }
        for (uint32_t which = 1; which < 16; which++, turn++) {
            uint32_t length[CHUNKS];
            for (int c = 0; c < ANSWER_CHUNK; c++)
                length[c] = which >> c & 1 ? wrong[c] : right_lengths[c];
            length[ANSWER_CHUNK] = which >> ANSWER_CHUNK
                                   ? answer[turn % COUNT(answer)]
                                   : ANSWER_BYTES;
            if (length[IMAGE_CHUNK] != IMAGE_BYTES && turn % 3)
                length[IMAGE_CHUNK] = turn % 3 == 1 ? 0 : IMAGE_BYTES + 1;
            content(turn / 4);
            put_lengths(image, length, &requests[turn % COUNT(requests)]);
        }
    }
    return 0;
}

/* ---- conversions ---- */

static void put(uint32_t image_length, uint32_t out_length, bool old)
{
    static struct chunk from, to;
    static uint64_t s = 9;
    garbage(&s, from.bytes, image_length);
    garbage(&s, to.bytes, out_length);
    memcpy(from.bytes, image, IMAGE_BYTES);
    if (old)
        image_narrow(from.bytes);
    from.length = image_length;
    to.length = out_length;
    put_word(given_edition);
    put_chunk(&from);
    put_chunk(&to);
}

/* Each word with each content, with entries and without, in every two of these
 * lengths: alone, and where 7, 2 and 11 hold too. */
int editions_converts(void)
{
    static const uint32_t length[] = {OLD_IMAGE_BYTES, IMAGE_BYTES, 0,
                                      IMAGE_BYTES + 1};
    for (uint32_t n = 0; n < NO_EDITIONS; n++) {
        given_edition = listed_no_edition(n);
        for (uint32_t i = 0; i < 16; i++)
            for (uint32_t which = 0; which < 8; which++) {
                if (n >= 6 && (i + which) % 3 != n % 3)
                    continue;
                content(which % 4);
                if (which / 4)
                    image_clear(image);
                put(length[i / 4], length[i % 4], i / 4 == 0);
            }
    }
    return 0;
}
