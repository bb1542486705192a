/* Conversions: each an image and the buffer that it goes to, in this form or
 * that. */
#include <string.h>

#include "images.h"

/* Right ones, those beside them, and some that share bits with them. */
static const uint32_t close_length[] = {0, 639, 640, 641, 767, 768, 769};
static const uint32_t any_length[] = {
    0, 1, 20, 24, 128, 256, 512, 620, 639, 640, 641, 644, 744, 764, 767, 768,
    769, 772, 896, 1024, 1280, 1536, 4096, LONGEST};

static uint8_t image[IMAGE_BYTES]; /* what is converted, in the new form */
static struct chunk from, to;
static uint64_t bytes_seed;        /* of what stands in the buffers before */

static uint32_t form(bool old)
{
    return old ? OLD_IMAGE_BYTES : IMAGE_BYTES;
}

/* The image in this form; where it goes is not said with it. */
static void set_form(bool old)
{
    memcpy(from.bytes, image, IMAGE_BYTES);
    if (old)
        image_narrow(from.bytes);
    from.length = form(old);
}

static void put_both(void)
{
    garbage(&bytes_seed, to.bytes, to.length);
    put_word(given_edition);
    put_chunk(&from);
    put_chunk(&to);
}

/* Where the conversion is made, the way back follows, which in one form is the
 * same way again. */
static void put_back(void)
{
    uint32_t length = from.length;
    if (peer_convert(given_edition, from.bytes, length, to.bytes,
                     to.length) != 0)
        return;
    memcpy(from.bytes, to.bytes, to.length);
    from.length = to.length;
    to.length = length;
    put_both();
}

/* Into each form. */
static void put_to_each(void)
{
    for (int old = 1; old >= 0; old--) {
        to.length = form(old);
        put_both();
    }
}

static void convert(bool old)
{
    set_form(old);
    put_to_each();
}

static void there_and_back(void)
{
    for (int pair = 0; pair < 4; pair++) {
        set_form(pair / 2);
        to.length = form(pair % 2);
        put_both();
        put_back();
    }
}

/* ---- a fixed list ---- */

/* Good without entries, the same with one, with a broken rule, with both. */
static void content(uint32_t which)
{
    image_mixed(image);
    image_clear(image);
    if (which % 2)
        put32(slot(image, 7) + AT_ENTRY, entry_of(which));
    if (which / 2 % 2)
        slot(image, 9)[AT_PRIORITY] = PRIORITIES;
}

/* Both forms stand in buffers of every two lengths. */
static void put_content(uint32_t which, uint32_t image_length,
                        uint32_t out_length)
{
    garbage(&bytes_seed, from.bytes, image_length);
    content(which);
    set_form(which / 4 % 2);
    from.length = image_length;
    to.length = out_length;
    put_both();
}

static void lengths(void)
{
    uint32_t turn = 0;
    for (unsigned i = 0; i < COUNT(close_length); i++)
        for (unsigned j = 0; j < COUNT(close_length); j++)
            for (uint32_t which = 0; which < 8; which++)
                put_content(which, close_length[i], close_length[j]);
    for (unsigned i = 0; i < COUNT(any_length); i++)
        for (unsigned j = 0; j < COUNT(any_length); j++)
            put_content(turn++, any_length[i], any_length[j]);
}

/* Each number of tasks; each slot in each state, with nobody active or the
 * first of the others. */
static void good(void)
{
    for (uint32_t n = 1; n <= TASKS; n++) {
        image_tasks(image, n);
        image_clear(image);
        there_and_back();
    }
    for (uint32_t i = 0; i < TASKS; i++)
        for (int state = STATE_ACTIVE; state <= STATE_EXITED; state++) {
            uint8_t *b = slot(image, i);
            image_tasks(image, TASKS);
            image_clear(image);
            remake(b, (enum state)state);
            if (state == STATE_READY)
                remake(slot(image, i == 0), STATE_ACTIVE);
            b[AT_WAITS_FOR] = state == STATE_RECEIVE_BLOCKED ? 1 + (i == 0)
                              : state == STATE_EVENT_BLOCKED ? 63 : 0;
            there_and_back();
            put32(b + AT_ENTRY, listed_entry(2 * i)); /* now one entry */
            convert(false);
        }
}

/* Two entries that are together nothing, if they are added up or held against
 * each other. */
static void put_two(uint32_t i, uint32_t j, uint32_t entry, bool sum)
{
    put32(slot(image, i) + AT_ENTRY, entry);
    put32(slot(image, j) + AT_ENTRY, sum ? 0 - entry : entry);
}

/* Each bit of an entry of the first, the last and some other task; the first
 * slot that is not given out, and the last. */
static void entries(void)
{
    for (uint32_t bit = 0; bit < 32; bit++)
        for (uint32_t i = 0; i < 5; i++) {
            uint32_t at = i == 3 ? MIXED : i == 4 ? TASKS - 1
                          : i * (MIXED - 1) / 2;
            content(0);
            put32(slot(image, at) + AT_ENTRY, 1u << bit);
            convert(false);
        }
    for (uint32_t n = 1; n <= TASKS; n++)
        for (uint32_t i = n - 1; i < n + 2 && i < TASKS; i++) {
            image_tasks(image, n);
            image_clear(image);
            put32(slot(image, i) + AT_ENTRY, listed_entry(n));
            convert(false);
            put32(image + AT_ENTRY, entry_of(0));
            convert(false);
        }
    for (uint32_t i = 1; i < MIXED; i++) {
        content(0);
        put_two(i / 2, i, listed_entry(2 * i), i % 2);
        convert(false);
    }
    image_mixed(image);          /* entries everywhere */
    there_and_back();
    image_tasks(image, TASKS);
    there_and_back();
}

/* Rules that no single byte of the mixed image breaks, or few do. */
static void rules(void)
{
    static const struct {
        uint8_t slot, at, is;
    } patch[][4] = {
        {{7, AT_CUT, 1}},        /* a fault that is cut */
        {{6, AT_CUT, 2}},        /* a value that is neither cut nor whole */
        {{3, AT_WAITS_FOR, 4}},  /* a sender at itself */
        {{14, AT_WAITS_FOR, 4}}, /* two at one event */
        {{5, AT_STATE, STATE_ACTIVE}},
        {{2, AT_STATE, STATE_EXITED}}, /* none active now */
        /* a target that waits for a sender, and one that exited */
        {{8, AT_STATE, STATE_SEND_BLOCKED}, {8, AT_REPLY + 3, 0}},
        {{8, AT_STATE, STATE_EXITED}, {8, AT_REPLY + 3, 0}},
        {{18, AT_STATE, STATE_EXITED}, {18, AT_REPLY + 3, 0},
         {9, AT_WAITS_FOR, 19}, {19, AT_PLACE, 0}}};
    for (unsigned i = 0; i < COUNT(patch); i++)
        for (uint32_t which = 0; which < 2; which++) {
            content(which);
            for (int j = 0; j < 4 && patch[i][j].at + patch[i][j].slot; j++)
                slot(image, patch[i][j].slot)[patch[i][j].at] =
                    patch[i][j].is;
            convert(false);
            convert(true);
        }
}

/* Each byte of a record spoiled: of the old form, of the new one without
 * entries and of the new one with an entry before it, at it or behind. */
static void each_byte(void)
{
    for (uint32_t i = 0; i < IMAGE_BYTES; i++)
        for (uint32_t which = 0; which < 2; which++) {
            uint8_t spoiled = (which + i / SLOT_BYTES) % 2 ? 0x80 : 1;
            content(which);
            image[i] ^= spoiled;
            convert(false);
            if (which == 0 && i % SLOT_BYTES < OLD_SLOT_BYTES)
                convert(true);
            if (which == 1 && i % SLOT_BYTES < OLD_SLOT_BYTES) {
                image[i] = 0xFF;
                convert(true);
            }
        }
}

/* An image of one form where the other is wanted: bytes 20 apart and not 24,
 * or the other way round. Of one task alone the two are hardly apart. */
static void apart(void)
{
    for (uint32_t n = 1; n <= TASKS; n++)
        for (uint32_t entry = 0; entry < 2; entry++) {
            image_tasks(image, n);
            if (entry == 0)
                image_clear(image);
            set_form(true);
            memset(from.bytes + OLD_IMAGE_BYTES, 0,
                   IMAGE_BYTES - OLD_IMAGE_BYTES);
            from.length = IMAGE_BYTES;
            put_to_each();
            set_form(false);
            from.length = OLD_IMAGE_BYTES;
            put_to_each();
        }
    memset(image, 0, sizeof image); /* no task at all */
    there_and_back();
}

int converts_fixed(void)
{
    bytes_seed = 1;
    good();
    entries();
    each_byte();
    rules();
    apart();
    lengths();
    return 0;
}

/* ---- drawn ones ---- */

/* Mostly one of the two alone. */
static void wrong_lengths(uint64_t *s)
{
    uint32_t which = below(s, 5);
    bool nearly = chance(s, 50);
    uint32_t a = nearly ? close_length[below(s, COUNT(close_length))]
                        : any_length[below(s, COUNT(any_length))];
    uint32_t b = chance(s, 50) ? from.length
                               : any_length[below(s, COUNT(any_length))];
    if (which < 2 || which == 4)
        from.length = a;
    if (which >= 2)
        to.length = which == 4 ? b : a;
}

/* One alone or two, often in the first slot or the last. */
static void few_entries(uint64_t *s)
{
    uint32_t n = used(image), any = below(s, n), other = below(s, n);
    uint32_t entry = some_entry(s), at = below(s, 4), style = below(s, 6);
    at = at == 0 ? 0 : at == 1 ? n - 1 : any;
    image_clear(image);
    if (style < 2)
        put_two(at, other, entry, style);
    else
        put32(slot(image, at) + AT_ENTRY,
              style == 2 ? 1 : style == 3 ? 1u << 31 : entry);
}

static void drawn(struct world *runs, uint64_t *s)
{
    uint32_t roll = below(s, 100), more = 1 + below(s, 3);
    bool old = chance(s, 50), to_old = chance(s, 50);
    given_edition = some_edition(s);
    base_image(runs, s, image_edition(s, given_edition), image);
    if (chance(s, 65))
        image_clear(image);
    if (chance(s, 12))
        few_entries(s);
    if (roll >= 50)
        image_damage(s, image);
    for (; roll >= 90 && more > 0; more--)
        image_damage(s, image);
    set_form(old);
    to.length = form(to_old);
    if (roll < 8 || roll >= 94)
        wrong_lengths(s);
    put_both();
    if (chance(s, 40))
        put_back();
}

int converts_drawn(uint64_t seed, unsigned long count)
{
    static struct world runs[2];
    uint64_t s = seed;
    bytes_seed = draw(&s);
    runs_start(runs, &s, false);
    for (unsigned long i = 0; i < count; i++)
        drawn(runs, &s);
    return 0;
}
