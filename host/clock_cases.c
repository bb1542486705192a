/* Histories of clocks, by the clock that ships: reads the records that `peer clock` reads, and writes what it writes. The clock's task is
 * driven as a host drives it, without a kernel: each message is told to it, and its own writes and Replies are done until it waits again. */
#include <stdio.h>
#include <string.h>
#include "bredonych.h"
#include "bredonych_clock.h"

enum { RECORD = 16, COUNT_AT = 16, KIND_AT = 8, VALUE_AT = 12, FROM_AT = 16, CUT_AT = 20 };

static uint8_t state[BREDONYCH_CLOCK_STATE], area[BREDONYCH_AREA];
static uint8_t request[BREDONYCH_REQUEST], answer[BREDONYCH_ANSWER];

static uint32_t word_at(const uint8_t *b)
{
    return b[0] | (uint32_t)b[1] << 8 | (uint32_t)b[2] << 16 | (uint32_t)b[3] << 24;
}

static void put_word(uint8_t *b, uint32_t x)
{
    for (int i = 0; i < 4; i++)
        b[i] = (uint8_t)(x >> (8 * i) & 255u);
}

static int tell(uint32_t value, uint32_t from, uint32_t cut)
{
    memset(answer, 0, sizeof answer);
    put_word(answer + KIND_AT, BREDONYCH_VALUE);
    put_word(answer + VALUE_AT, value);
    put_word(answer + FROM_AT, from);
    put_word(answer + CUT_AT, cut);
    return clock_told(state, sizeof state, answer, sizeof answer, area, sizeof area) == BREDONYCH_ACCEPTED;
}

static int asks(void) { return clock_asks(state, sizeof state, request, sizeof request) == BREDONYCH_ACCEPTED; }

/* A clock that knows its notifier and waits for its first message. The first count is put into its state, where every clock starts
 * from 0, so that the wrap can be reached. */
static int fresh(uint32_t notifier, uint32_t count)
{
    if (clock_start(0, state, sizeof state) != BREDONYCH_ACCEPTED || !asks() || !tell(notifier, 0, BREDONYCH_WHOLE) || !asks())
        return 0;
    put_word(state + COUNT_AT, count);
    return word_at(request) == BREDONYCH_RECEIVE;
}

/* One message: what the clock replies until it waits for the next. As from a kernel, one that is longer than the clock's buffer is cut. */
static int heard(const uint8_t *record)
{
    uint8_t out[4 + 12 * (BREDONYCH_CLOCK_SLEEPERS + 1)];
    uint32_t number = 0, length = word_at(record + 4);

    memcpy(area, record + 8, BREDONYCH_CLOCK_MESSAGE);
    if (!tell(length, word_at(record), length > BREDONYCH_CLOCK_MESSAGE ? BREDONYCH_CUT : BREDONYCH_WHOLE))
        return 0;
    for (;;) {
        if (!asks())
            return 0;
        uint32_t kind = word_at(request), first = word_at(request + 4), second = word_at(request + 8);
        if (kind == BREDONYCH_RECEIVE)
            break;
        if (kind == BREDONYCH_OWN_WRITE && first < BREDONYCH_AREA)
            area[first] = (uint8_t)second;
        else if (kind == BREDONYCH_REPLY && number <= BREDONYCH_CLOCK_SLEEPERS && second <= BREDONYCH_AREA - 8) {
            put_word(out + 4 + 12 * number, first);
            memcpy(out + 8 + 12 * number++, area + second, BREDONYCH_CLOCK_MESSAGE);
            if (!tell(BREDONYCH_CLOCK_MESSAGE, 0, BREDONYCH_WHOLE))
                return 0;
        } else
            return 0;
    }
    put_word(out, number);
    return fwrite(out, 1, 4 + 12 * number, stdout) == 4 + 12 * number;
}

int main(void)
{
    uint8_t record[RECORD];
    size_t got = 0;
    int good = fresh(0, 0);

    while (good && (got = fread(record, 1, RECORD, stdin)) == RECORD)
        good = word_at(record) == 0 ? fresh(word_at(record + 4), word_at(record + 8)) : heard(record);
    if (!good || got != 0)
        fprintf(stderr, good ? "clock_cases: the last record is incomplete\n" : "clock_cases: the clock is not as a clock is\n");
    return good && got == 0 ? 0 : 1;
}
