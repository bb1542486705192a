/* Feeds byte-entry cases to kernel_step, on any target. A case is the edition (four bytes, little-endian), then the image, areas, record
   and answer, each a length (four bytes) and its bytes; what is written for it is the verdict (four bytes) and the four again, as the
   call left them. Before the cases, kernel_start is called with some editions, priorities, entry numbers and lengths, and kernel_convert
   with images of both forms, good and not, in both editions and in none; each verdict is written, and the image that there is then. */
#include <stdint.h>
#include <unistd.h>
#include "bredonych.h"
#include "watch.h"

enum { CHUNKS = 4, MOST = 16384 };

static uint8_t chunk[CHUNKS][MOST];
static uint32_t length[CHUNKS];

/* Reads or writes all of it; 0 if that failed. */
static int whole_read(uint8_t *to, uint32_t n)
{
    while (n > 0) {
        int got = read(0, to, n);
        if (got <= 0) return 0;
        to += got, n -= got;
    }
    return 1;
}

static int whole_write(const uint8_t *from, uint32_t n)
{
    while (n > 0) {
        int put = write(1, from, n);
        if (put <= 0) return 0;
        from += put, n -= put;
    }
    return 1;
}

static int word_read(uint32_t *word)
{
    uint8_t b[4];
    if (!whole_read(b, 4)) return 0;
    *word = b[0] | b[1] << 8 | b[2] << 16 | (uint32_t)b[3] << 24;
    return 1;
}

static int word_write(uint32_t word)
{
    uint8_t b[4] = { word, word >> 8, word >> 16, word >> 24 };
    return whole_write(b, 4);
}

static int starts(void)
{
    static const uint32_t edition[] = { 1, 2, 1, 2, 1, 2, 1, 1, 0, 3, 257, UINT32_MAX };
    static const uint32_t priority[] = { 0, 16, 31, 32, UINT32_MAX, 16, 16, 16, 16, 32, 16, 32 };
    static const uint32_t entry[] = { 0, 0x04030201, UINT32_MAX, 1, 1, 1, 1, 1, 1, 1, 1, 1 };
    static const uint32_t bytes[] = { 768, 768, 768, 768, 768, 767, 640, 0, 768, 768, 767, 0 };
    for (int i = 0; i < 12; i++) {
        for (int at = 0; at < BREDONYCH_IMAGE; at++) chunk[0][at] = at;
        watch_begin();
        uint32_t verdict = kernel_start(edition[i], priority[i], entry[i], chunk[0], bytes[i]);
        watch_end();
        if (!word_write(verdict) || !whole_write(chunk[0], BREDONYCH_IMAGE)) return 0;
    }
    watch_report("kernel_start");
    return 1;
}

/* From chunk 0 into chunk 2, which is filled before. */
static int converted(uint32_t edition, uint32_t from, uint32_t to)
{
    for (int at = 0; at < BREDONYCH_IMAGE; at++) chunk[2][at] = at;
    watch_begin();
    uint32_t verdict = kernel_convert(edition, chunk[0], from, chunk[2], to);
    watch_end();
    return word_write(verdict) && whole_write(chunk[2], BREDONYCH_IMAGE);
}

/* A full table, in which no entry number is in the way: all but the first task are ready, or they all wait for one event. */
static void fill(int waiting)
{
    const uint8_t create[BREDONYCH_REQUEST] = { BREDONYCH_CREATE, 0, 0, 0, waiting ? 8 : 20 };
    const uint8_t waits[BREDONYCH_REQUEST] = { BREDONYCH_AWAIT_EVENT };
    kernel_start(BREDONYCH_MANY_WAIT, 16, 0, chunk[0], BREDONYCH_IMAGE);
    for (int i = 1; i < BREDONYCH_TASKS; i++)
        for (int asked = 0; asked <= waiting; asked++)
            kernel_step(BREDONYCH_MANY_WAIT, chunk[0], BREDONYCH_IMAGE, chunk[1], BREDONYCH_AREAS,
                        asked ? waits : create, BREDONYCH_REQUEST, chunk[3], BREDONYCH_ANSWER);
}

/* Into every length, and in every edition: one waits, many wait, and none. */
static int converted_all(uint32_t from)
{
    static const uint32_t bytes[] = { 768, 640, 767, 639, 0 }, edition[] = { 1, 2, 257 };
    for (int i = 0; i < 15; i++)
        if (!converted(edition[i % 3], from, bytes[i / 3])) return 0;
    return 1;
}

static int converts(void)
{
    for (int waiting = 0; waiting < 2; waiting++) {
        fill(waiting);
        if (!converted_all(768) || !converted(2, 768, 640)) return 0;
        for (int at = 0; at < BREDONYCH_OLD_IMAGE; at++) chunk[0][at] = chunk[2][at];
        if (!converted_all(640)) return 0;
        chunk[0][1] = BREDONYCH_PRIORITIES; /* a priority that is none */
        if (!converted(2, 640, 768)) return 0;
    }
    fill(0);
    chunk[0][31 * BREDONYCH_RECORD + BREDONYCH_ENTRY + 3] = 1; /* the last task's entry number: taken, but not by the old form */
    if (!converted(1, 768, 768) || !converted(1, 768, 640)) return 0;
    chunk[0][1] = BREDONYCH_PRIORITIES;
    if (!converted(1, 768, 768) || !converted(1, 768, 640)) return 0;
    watch_report("kernel_convert");
    return 1;
}

int main(void)
{
    uint32_t edition;
    if (!starts() || !converts()) return 1;
    while (word_read(&edition)) {
        for (int i = 0; i < CHUNKS; i++)
            if (!word_read(&length[i]) || length[i] > MOST || !whole_read(chunk[i], length[i])) return 1;
        watch_begin();
        uint32_t verdict = kernel_step(edition, chunk[0], length[0], chunk[1], length[1],
                                       chunk[2], length[2], chunk[3], length[3]);
        watch_end();
        if (!word_write(verdict)) return 1;
        for (int i = 0; i < CHUNKS; i++)
            if (!word_write(length[i]) || !whole_write(chunk[i], length[i])) return 1;
    }
    watch_report("kernel_step");
    return 0;
}
