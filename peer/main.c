/* The five jobs: "run", the program of document 01's first run; "cases",
   which shows what the byte entry does with bytes of any kind; "start", which
   shows what a start does with images of any length; "clock", which shows what
   a clock answers to the messages that reach it; and "convert", which shows
   how images of any kind go into either form. */
#include "clock.h"
#include "kernel.h"

#include <inttypes.h>
#include <stdio.h>
#include <string.h>
#include "cover.h"

enum {
    BLOCK_RECORDS = 2048,
    STREAM_BLOCK = 65536,
    CHUNK_MAX = 16384,
    WORD_BYTES = 4,
    START_BYTES = 16,
    IMAGE_FILL = 0xA5 /* no byte of a fresh image, so what is written shows */
};

static int complain(const char *what)
{
    fprintf(stderr, "peer: %s\n", what);
    return 1;
}

/* Output is held back in blocks, so its errors may show only here. */
static int finish(void)
{
    if (fflush(stdout) != 0 || ferror(stdout))
        return complain("cannot write the output");
    return 0;
}

static void print_step(uint64_t step, const struct request *q,
                       const struct answer *a)
{
    printf("%" PRIu64 " %" PRId32 " ", step, q->kind);
    if (a->verdict == 0)
        printf("ok");
    else
        printf("R%" PRIu32, a->verdict);
    printf(" %" PRIu32 " ", a->next);
    if (a->result.kind == RESULT_VALUE)
        printf("v %" PRId32 " %" PRIu32 " %d\n", a->result.number,
               a->result.from, a->result.cut);
    else if (a->result.kind == RESULT_FAULT)
        printf("e %" PRId32 "\n", a->result.number);
    else
        printf("-\n");
}

static int run(uint32_t edition)
{
    uint8_t block[BLOCK_RECORDS * RECORD_BYTES];
    uint8_t areas[AREAS_BYTES] = { 0 };
    struct table k;
    uint64_t step = 0;
    size_t got;

    table_start(&k, edition, FIRST_PRIORITY, 0);
    do {
        got = fread(block, 1, sizeof block, stdin);
        for (size_t i = 0; i < got / RECORD_BYTES; i++) {
            struct request q = request_read(block + i * RECORD_BYTES);
            struct answer a = table_step(&k, areas, &q);

            print_step(++step, &q, &a);
        }
    } while (got == sizeof block);
    if (ferror(stdin)) {
        fflush(stdout);
        return complain("cannot read the input");
    }
    MARK_IF(got % RECORD_BYTES != 0, END_R5);
    if (got % RECORD_BYTES != 0)
        printf("end R5\n");
    return finish();
}

struct chunk {
    uint32_t length;
    uint8_t bytes[CHUNK_MAX];
};

struct test_case {
    uint32_t edition;
    struct chunk image, areas, record, answer;
};

static uint32_t number_read(const uint8_t *b)
{
    return (uint32_t)b[0] | (uint32_t)b[1] << 8 | (uint32_t)b[2] << 16
         | (uint32_t)b[3] << 24;
}

static void number_print(uint32_t u)
{
    uint8_t b[WORD_BYTES] = { (uint8_t)u, (uint8_t)(u >> 8),
                                (uint8_t)(u >> 16), (uint8_t)(u >> 24) };

    fwrite(b, 1, sizeof b, stdout);
}

static void chunk_print(const struct chunk *c)
{
    number_print(c->length);
    fwrite(c->bytes, 1, c->length, stdout);
}

/* Returns NULL, or what is wrong with the word. *at_end says that the input
   was over before its first byte. */
static const char *word_read(uint32_t *word, bool *at_end)
{
    uint8_t bytes[WORD_BYTES];
    size_t got = fread(bytes, 1, sizeof bytes, stdin);

    *at_end = got == 0 && !ferror(stdin);
    if (got != sizeof bytes)
        return "the last case is cut short";
    *word = number_read(bytes);
    return NULL;
}

/* Never the first of a case, so that an end before it is no good end. */
static const char *chunk_read(struct chunk *c)
{
    bool at_end;
    const char *wrong = word_read(&c->length, &at_end);

    if (wrong != NULL)
        return wrong;
    if (c->length > CHUNK_MAX)
        return "a chunk is longer than 16384 bytes";
    if (fread(c->bytes, 1, c->length, stdin) != c->length)
        return "the last case is cut short";
    return NULL;
}

static const char *case_read(struct test_case *c, bool *over)
{
    const char *wrong = word_read(&c->edition, over);

    if (wrong == NULL)
        wrong = chunk_read(&c->image);
    if (wrong == NULL)
        wrong = chunk_read(&c->areas);
    if (wrong == NULL)
        wrong = chunk_read(&c->record);
    if (wrong == NULL)
        wrong = chunk_read(&c->answer);
    return wrong;
}

/* What came before the bad record is still written; one complaint is enough. */
static int stop(const char *wrong)
{
    fflush(stdout);
    return complain(ferror(stdin) ? "cannot read the input" : wrong);
}

static int cases(void)
{
    struct test_case c;
    const char *wrong;
    bool over;

    setvbuf(stdin, NULL, _IOFBF, STREAM_BLOCK);
    while ((wrong = case_read(&c, &over)) == NULL) {
        uint32_t verdict = peer_step(c.edition,
                                     c.image.bytes, c.image.length,
                                     c.areas.bytes, c.areas.length,
                                     c.record.bytes, c.record.length,
                                     c.answer.bytes, c.answer.length);

        number_print(verdict);
        chunk_print(&c.image);
        chunk_print(&c.areas);
        chunk_print(&c.record);
        chunk_print(&c.answer);
    }
    if (over)
        return finish();
    MARK(strstr(wrong, "cut") != NULL ? CASE_CUT : CASE_LONG);
    return stop(wrong);
}

struct start {
    uint32_t edition, priority, entry, length;
};

/* As word_read, for the record of a start. */
static const char *start_read(struct start *s, bool *at_end)
{
    uint8_t record[START_BYTES];
    size_t got = fread(record, 1, sizeof record, stdin);

    *at_end = got == 0 && !ferror(stdin);
    if (got != sizeof record)
        return "the last start is cut short";
    s->edition = number_read(record);
    s->priority = number_read(record + 4);
    s->entry = number_read(record + 8);
    s->length = number_read(record + 12);
    if (s->length > CHUNK_MAX)
        return "an image is longer than 16384 bytes";
    return NULL;
}

static int start(void)
{
    uint8_t image[CHUNK_MAX];
    struct start s;
    const char *wrong;
    bool over;

    setvbuf(stdin, NULL, _IOFBF, STREAM_BLOCK);
    while ((wrong = start_read(&s, &over)) == NULL) {
        memset(image, IMAGE_FILL, s.length);
        number_print(peer_start(s.edition, s.priority, s.entry, image,
                                s.length));
        fwrite(image, 1, s.length, stdout);
    }
    if (over)
        return finish();
    MARK(strstr(wrong, "cut") != NULL ? START_CUT : START_LONG);
    return stop(wrong);
}

static int convert(void)
{
    struct chunk image, out;
    uint32_t edition;
    const char *wrong;
    bool over;

    setvbuf(stdin, NULL, _IOFBF, STREAM_BLOCK);
    while ((wrong = word_read(&edition, &over)) == NULL
           && (wrong = chunk_read(&image)) == NULL
           && (wrong = chunk_read(&out)) == NULL) {
        number_print(peer_convert(edition, image.bytes, image.length,
                                  out.bytes, out.length));
        chunk_print(&image);
        chunk_print(&out);
    }
    if (over)
        return finish();
    MARK(strstr(wrong, "cut") != NULL ? CONVERT_CUT : CONVERT_LONG);
    return stop(wrong);
}

static void answers_print(const struct clock_answers *given)
{
    number_print(given->number);
    for (uint32_t i = 0; i < given->number; i++) {
        number_print(given->answer[i].tid);
        number_print((uint32_t)given->answer[i].status);
        number_print(given->answer[i].count);
    }
}

/* A sender's tid is never 0, which leaves 0 to say that the record is no
   message but a new clock. */
static void clock_record(struct clock *c, const uint8_t *record)
{
    struct clock_message m = { number_read(record), number_read(record + 4),
                               number_read(record + 8),
                               number_read(record + 12) };
    struct clock_answers given;

    MARK_RECORDED(c, &m);
    if (m.sender == 0) {
        clock_start(c, number_read(record + 4), number_read(record + 8));
        return;
    }
    clock_hear(c, &m, &given);
    answers_print(&given);
}

static int clock_messages(void)
{
    uint8_t record[CLOCK_RECORD_BYTES];
    struct clock c;
    size_t got;

    setvbuf(stdin, NULL, _IOFBF, STREAM_BLOCK);
    clock_start(&c, 0, 0);
    while ((got = fread(record, 1, sizeof record, stdin)) == sizeof record)
        clock_record(&c, record);
    if (got == 0 && !ferror(stdin))
        return finish();
    MARK(CLOCK_CUT);
    return stop("the last record is cut short");
}

/* Exactly the word for an edition, so not "01" and not "+1"; 0 for others. */
static uint32_t edition_named(const char *word)
{
    return strcmp(word, "1") == 0 ? EDITION_SOLE
           : strcmp(word, "2") == 0 ? EDITION_CROWD : 0;
}

int main(int argc, char **argv)
{
    MARK_PROGRAM(argc, argv);
    setvbuf(stdout, NULL, _IOFBF, STREAM_BLOCK);
    if (argc == 2 && strcmp(argv[1], "run") == 0)
        return run(EDITION_SOLE);
    if (argc == 3 && strcmp(argv[1], "run") == 0
        && edition_named(argv[2]) != 0)
        return run(edition_named(argv[2]));
    if (argc == 2 && strcmp(argv[1], "cases") == 0)
        return cases();
    if (argc == 2 && strcmp(argv[1], "start") == 0)
        return start();
    if (argc == 2 && strcmp(argv[1], "clock") == 0)
        return clock_messages();
    if (argc == 2 && strcmp(argv[1], "convert") == 0)
        return convert();
    fprintf(stderr, "usage: peer run [1|2] | peer cases|start|clock|convert\n");
    return 2;
}
