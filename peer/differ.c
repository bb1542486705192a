/* Says in words where two outputs part, once cmp has found that they do. */
#include <stdint.h>
#include <stdio.h>
#include <stdlib.h>
#include <string.h>

#include "kernel.h"

/* A clock gives at most 17 answers; one that is wrong may give more. */
enum { LINE = 128, CHUNK = 16384, MOST = 64 };

/* What a case gave: a verdict and four chunks; a conversion gives two of its
 * own, a start only the image. */
struct form {
    int chunks;
    const char *name[4];
};

static const struct form case_form = {4, {"image", "areas", "record",
                                          "answer"}};
static const struct form start_form = {1, {"image"}};
static const struct form convert_form = {2, {"image", "out"}};

struct outcome {
    bool whole;
    uint32_t verdict, length[4];
    uint8_t bytes[4][CHUNK];
};

/* Bytes that do not print are shown as ?, with their value behind. */
static bool get_line(FILE *f, char *line)
{
    int c = 0, at = 0;
    while (at < LINE - 8 && (c = getc(f)) != EOF && c != '\n')
        at += c >= ' ' && c <= '~' ? sprintf(line + at, "%c", c)
                                   : sprintf(line + at, "?%d", c);
    line[at] = '\0';
    if (at == 0 && c == EOF)
        strcpy(line, "(no line)");
    return at > 0 || c != EOF;
}

static int lines(FILE *a, FILE *b)
{
    char peer[LINE], other[LINE];
    for (unsigned long number = 1;; number++) {
        bool more = get_line(a, peer);
        more = get_line(b, other) || more;
        if (strcmp(peer, other) != 0) {
            printf("line %lu: peer '%s', other '%s'\n", number, peer, other);
            return 1;
        }
        if (!more)
            return 0;
    }
}

static bool get_word(FILE *f, uint32_t *n)
{
    uint8_t b[4];
    if (fread(b, 1, sizeof b, f) != sizeof b)
        return false;
    *n = b[0] | (uint32_t)b[1] << 8 | (uint32_t)b[2] << 16 |
         (uint32_t)b[3] << 24;
    return true;
}

static bool skip_chunk(FILE *in)
{
    uint32_t length;
    return get_word(in, &length) && fseek(in, (long)length, SEEK_CUR) == 0;
}

static void get_outcome(FILE *f, const struct form *form, struct outcome *o)
{
    memset(o, 0, sizeof *o);
    if (!get_word(f, &o->verdict))
        return;
    for (int i = 0; i < form->chunks; i++)
        if (!get_word(f, &o->length[i]) || o->length[i] > CHUNK ||
            fread(o->bytes[i], 1, o->length[i], f) != o->length[i])
            return;
    o->whole = true;
}

static void describe(const struct form *form, const struct outcome *a,
                     const struct outcome *b)
{
    if (form == &case_form && a->length[2] == RECORD_BYTES) {
        struct request q = request_read(a->bytes[2]);
        printf("request %ld(%ld,%ld,%ld,%ld,%ld): ", (long)q.kind,
               (long)q.arg[0], (long)q.arg[1], (long)q.arg[2],
               (long)q.arg[3], (long)q.arg[4]);
    }
    if (a->verdict != b->verdict)
        printf("verdict: peer %lu, other %lu; ", (unsigned long)a->verdict,
               (unsigned long)b->verdict);
    for (int i = 0; i < form->chunks; i++) {
        if (a->length[i] != b->length[i]) {
            printf("length of %s: peer %lu, other %lu\n", form->name[i],
                   (unsigned long)a->length[i], (unsigned long)b->length[i]);
            return;
        }
        for (uint32_t j = 0; j < a->length[i]; j++) {
            if (a->bytes[i][j] != b->bytes[i][j]) {
                printf("%s byte %lu: peer %d, other %d\n", form->name[i],
                       (unsigned long)j, a->bytes[i][j], b->bytes[i][j]);
                return;
            }
        }
    }
    printf("no other difference\n");
}

static void tell(const struct form *form, const struct outcome *peer,
                 const struct outcome *other)
{
    if (peer->whole && other->whole)
        describe(form, peer, other);
    else
        printf("%s\n", peer->whole ? "the other gave nothing whole"
                                   : "the peer gave nothing whole");
}

/* Only the input says which edition was given; there the chunks are as many. */
static int outcomes(const char *what, const struct form *form, FILE *a,
                    FILE *b, FILE *in)
{
    static struct outcome peer, other;
    for (unsigned long number = 1;; number++) {
        uint32_t edition = 0;
        get_word(in, &edition);
        for (int i = 0; i < form->chunks; i++)
            skip_chunk(in);
        get_outcome(a, form, &peer);
        get_outcome(b, form, &other);
        if (memcmp(&peer, &other, sizeof peer) != 0) {
            printf("%s %lu, edition %lu: ", what, number,
                   (unsigned long)edition);
            if (form == &convert_form)
                printf("lengths %lu and %lu: ", (unsigned long)peer.length[0],
                       (unsigned long)peer.length[1]);
            tell(form, &peer, &other);
            return 1;
        }
        if (!peer.whole)
            return 0;
    }
}

/* How many whole cases or conversions there are, as input: each is a word and
 * so many chunks. */
static int count(const char *each, FILE *in)
{
    unsigned long chunks = strtoul(each, NULL, 10), read = chunks, records = 0;
    uint32_t edition;
    while (read == chunks && get_word(in, &edition)) {
        for (read = 0; read < chunks && skip_chunk(in); read++)
            ;
        records += read == chunks;
    }
    printf("%lu\n", records);
    return 0;
}

static void get_started(FILE *f, uint32_t length, struct outcome *o)
{
    memset(o, 0, sizeof *o);
    if (!get_word(f, &o->verdict))
        return;
    o->length[0] = length;
    o->whole = fread(o->bytes[0], 1, length, f) == length;
}

static int after_last(const char *what, FILE *a, FILE *b)
{
    bool more = getc(a) != EOF;
    if (!more && getc(b) == EOF)
        return 0;
    printf("after the last %s: %s gave more\n", what,
           more ? "the peer" : "the other");
    return 1;
}

/* Only the input says how long each image is. */
static int starts(FILE *a, FILE *b, FILE *in)
{
    static struct outcome peer, other;
    uint32_t edition, priority, entry, length;
    for (unsigned long number = 1; get_word(in, &edition) &&
                                   get_word(in, &priority) &&
                                   get_word(in, &entry) &&
                                   get_word(in, &length) && length <= CHUNK;
         number++) {
        get_started(a, length, &peer);
        get_started(b, length, &other);
        if (memcmp(&peer, &other, sizeof peer) != 0) {
            printf("start %lu, edition %lu, priority %lu, entry %lu, "
                   "length %lu: ", number, (unsigned long)edition,
                   (unsigned long)priority, (unsigned long)entry,
                   (unsigned long)length);
            tell(&start_form, &peer, &other);
            return 1;
        }
    }
    return after_last("start", a, b);
}

/* What a message was answered. */
struct heard {
    bool whole;
    uint32_t number, word[MOST][3];
};

static void get_heard(FILE *f, struct heard *h)
{
    memset(h, 0, sizeof *h);
    if (!get_word(f, &h->number) || h->number > MOST)
        return;
    for (uint32_t i = 0; i < h->number; i++)
        for (int j = 0; j < 3; j++)
            if (!get_word(f, &h->word[i][j]))
                return;
    h->whole = true;
}

static void tell_heard(const char *who, const struct heard *h)
{
    printf("  %s:", who);
    if (!h->whole)
        printf(" nothing whole");
    else if (h->number == 0)
        printf(" no answer");
    for (uint32_t i = 0; h->whole && i < h->number; i++)
        printf("%s tid %lu status %ld count %lu", i > 0 ? "," : "",
               (unsigned long)h->word[i][0], (long)(int32_t)h->word[i][1],
               (unsigned long)h->word[i][2]);
    printf("\n");
}

/* Messages are counted from 1, over all clocks of the input. */
static int clocks(FILE *a, FILE *b, FILE *in)
{
    static struct heard peer, other;
    uint32_t word[4];
    unsigned long messages = 0, clock = 0;
    while (get_word(in, &word[0]) && get_word(in, &word[1]) &&
           get_word(in, &word[2]) && get_word(in, &word[3])) {
        clock += word[0] == 0;
        if (word[0] == 0)
            continue;
        messages++;
        get_heard(a, &peer);
        get_heard(b, &other);
        if (memcmp(&peer, &other, sizeof peer) != 0) {
            printf("message %lu, new clock %lu: tid %lu, length %lu, op %lu, "
                   "argument %lu (signed %ld)\n", messages, clock,
                   (unsigned long)word[0], (unsigned long)word[1],
                   (unsigned long)word[2], (unsigned long)word[3],
                   (long)(int32_t)word[3]);
            tell_heard("peer", &peer);
            tell_heard("other", &other);
            return 1;
        }
    }
    return after_last("message", a, b);
}

int main(int argc, char **argv)
{
    FILE *a = argc >= 3 ? fopen(argv[2], "rb") : NULL;
    FILE *b = argc >= 4 ? fopen(argv[3], "rb") : NULL;
    FILE *in = argc == 5 ? fopen(argv[4], "rb") : NULL;
    if (argc == 4 && b && strcmp(argv[1], "count") == 0)
        return count(argv[2], b);
    if (argc == 4 && a && b && strcmp(argv[1], "lines") == 0)
        return lines(a, b);
    if (a && b && in && strcmp(argv[1], "cases") == 0)
        return outcomes("case", &case_form, a, b, in);
    if (a && b && in && strcmp(argv[1], "converts") == 0)
        return outcomes("conversion", &convert_form, a, b, in);
    if (a && b && in && strcmp(argv[1], "starts") == 0)
        return starts(a, b, in);
    if (a && b && in && strcmp(argv[1], "clocks") == 0)
        return clocks(a, b, in);
    fputs("usage: differ lines PEER OTHER\n"
          "       differ cases|converts|starts|clocks PEER OTHER INPUT\n"
          "       differ count CHUNKS-OF-EACH INPUT\n", stderr);
    return 2;
}
