/* Reads a run: its request records, and the wide lines that kernel-run prints of them. Nothing is worked out that these two do not
 * say. What the picture takes for granted is asked of every line, so that no picture is drawn of what is no run. */
#include <string.h>
#include "timeline.h"

enum { LAST_STATE = EXITED, LAST_PRIORITY = 31, LAST_REFUSAL = 10, LAST_FAULT = 3, LONGEST = 1024 };

/* A number as the program writes it: no plus, and no zero in front. */
static int long_number(const char **at, int64_t least, int64_t most, int64_t *to)
{
    const char *s = *at;
    int minus = *s == '-';
    int64_t n = 0;
    s += minus;
    if (*s < '0' || *s > '9' || (*s == '0' && (minus || (s[1] >= '0' && s[1] <= '9'))))
        return 0;
    for (; *s >= '0' && *s <= '9'; s++) {
        n = 10 * n + (*s - '0');
        if (n > UINT32_MAX)
            return 0;
    }
    n = minus ? -n : n;
    if (n < least || n > most)
        return 0;
    *to = n;
    *at = s;
    return 1;
}

static int number(const char **at, int32_t least, int32_t most, int *to)
{
    int64_t n;
    if (!long_number(at, least, most, &n))
        return 0;
    *to = (int)n;
    return 1;
}

static int word(const char **at, const char *text)
{
    size_t length = strlen(text);
    if (strncmp(*at, text, length) != 0)
        return 0;
    *at += length;
    return 1;
}

static int verdict(const char **at, struct step *s)
{
    return word(at, "ok") || (word(at, "R") && number(at, 1, LAST_REFUSAL, &s->verdict));
}

static int result(const char **at, struct step *s)
{
    s->told = **at;
    if (word(at, "v "))
        return number(at, 0, INT32_MAX, &s->value) && word(at, " ") && number(at, 0, TASKS, &s->from) && word(at, " ")
               && number(at, 0, 1, &s->value_cut);
    return word(at, "-") || (word(at, "e ") && number(at, -LAST_FAULT, -1, &s->value));
}

static int effect(const char **at, struct step *s)
{
    s->effect = **at;
    if (word(at, "c "))
        return number(at, 0, TASKS * AREA, &s->source) && word(at, " ") && number(at, 0, TASKS * AREA, &s->dest) && word(at, " ")
               && number(at, 0, AREA, &s->count) && word(at, " ") && number(at, 0, 1, &s->delivery_cut);
    return word(at, "-") || (word(at, "w ") && number(at, 0, TASKS * AREA - 1, &s->dest));
}

static int tasks(const char **at, struct step *s)
{
    do {
        int state, priority;
        int64_t entry;
        if (s->used == TASKS || !number(at, ACTIVE, LAST_STATE, &state) || !word(at, "/") || !number(at, 0, LAST_PRIORITY, &priority)
            || !word(at, "/") || !long_number(at, 0, UINT32_MAX, &entry))
            return 0;
        s->used++;
        s->state[s->used] = (unsigned char)state;
        s->priority[s->used] = (unsigned char)priority;
        s->entry[s->used] = (uint32_t)entry;
    } while (word(at, " "));
    return 1;
}

/* A whole line: what a step showed, by its form alone. */
static int shown(const char *line, struct step *s, int *step, int *kind)
{
    const char **at = &line;
    return number(at, 1, INT32_MAX, step) && word(at, " ") && number(at, INT32_MIN, INT32_MAX, kind) && word(at, " ") && verdict(at, s)
           && word(at, " ") && number(at, 0, TASKS, &s->next) && word(at, " ") && result(at, s) && word(at, " ; ") && effect(at, s)
           && word(at, " ; ") && tasks(at, s) && strcmp(line, "\n") == 0;
}

static int within(const struct step *s, int tid, int place, int count)
{
    return tid >= 1 && tid <= s->used && place >= (tid - 1) * AREA && place + count <= tid * AREA;
}

/* Between whom a delivery is. Its places alone do not tell: an empty one may stand at the end of an area, where the next one starts.
 * So the request names the parties, and at a Receive the sender is the one who now waits for a reply. */
static int parties(struct step *s, const struct step *before)
{
    int kind = s->words[0];
    s->giver = s->taker = s->caller;
    if (kind == SEND || kind == REPLY)
        s->taker = s->words[1];
    if (kind == RECEIVE)
        for (int t = 1; t <= s->used; t++)
            if (before->state[t] == RECEIVE_BLOCKED && s->state[t] == REPLY_BLOCKED)
                s->giver = t;
    return s->giver != s->taker && within(s, s->giver, s->source, s->count) && within(s, s->taker, s->dest, s->count);
}

/* Who waits for an event. A task begins to by its own AwaitEvent, and an Event wakes all who wait for it, in either edition. */
static int waits(struct step *s, const struct step *before, int number)
{
    for (int t = 1; t <= s->used; t++) {
        int was = before->state[t] == EVENT_BLOCKED, is = s->state[t] == EVENT_BLOCKED;
        int asks = s->words[0] == AWAIT_EVENT && s->caller == t;
        int wakes = s->words[0] == EVENT && !s->verdict && s->words[1] == before->event[t];
        if (was ? is == wakes : is && !asks)
            return 0;
        s->event[t] = was ? before->event[t] : s->words[1];
        s->since[t] = was ? before->since[t] : number;
    }
    return 1;
}

/* What is wrong with a line that has the right form, or NULL. */
static const char *odd(struct step *s, const struct step *before, int number)
{
    for (int t = 1; t <= before->used; t++)
        if (t > s->used || s->priority[t] != before->priority[t] || s->entry[t] != before->entry[t])
            return "a task of the line before is gone, or its priority or its entry number is another";
    for (int t = 1; t <= TASKS; t++)
        if ((s->state[t] == ACTIVE) != (t == s->next))
            return "the task that runs next is not the one that is active";
    if (!s->next && s->told != '-')
        return "a result, and nobody who is told it";
    if (s->from > s->used)
        return "the result is from a task that is not there";
    if (s->effect == 'c' && !parties(s, before))
        return "the delivery is not from one task's area to another's";
    if (s->effect == 'w' && !within(s, s->caller, s->dest, 1))
        return "the write is not in the area of the task that asks";
    if (!waits(s, before, number))
        return "a task waits for an event that it did not ask for, or was woken by another, or was not woken by it";
    return NULL;
}

/* The step's line, held to its record and to the line before. Answers what is wrong, or NULL. */
static const char *read_line(struct step *s, int due, const char *line)
{
    int step, kind;
    if (!shown(line, s, &step, &kind))
        return "not of the form STEP KIND VERDICT NEXT RESULT ; EFFECT ; TASK TASK ..";
    if (step != due || kind != s->words[0])
        return "not the step and the kind of its record";
    s->caller = kind == EVENT ? 0 : s[-1].next;
    return odd(s, s - 1, step);
}

static size_t read_record(FILE *in, struct step *s)
{
    unsigned char b[4 * WORDS];
    size_t length = fread(b, 1, sizeof b, in);
    if (length == sizeof b)
        for (int i = 0; i < WORDS; i++)
            s->words[i] = (int32_t)(b[4 * i] | (uint32_t)b[4 * i + 1] << 8 | (uint32_t)b[4 * i + 2] << 16 | (uint32_t)b[4 * i + 3] << 24);
    return length;
}

static int wrong(const struct run *r, const char *why)
{
    fprintf(stderr, "timeline: line %d: %s\n", r->count, why);
    return 0;
}

/* One more step, from its record and its line. */
static int read_step(struct run *r, const struct step *record, FILE *lines)
{
    char line[LONGEST];
    if (r->count == MOST) {
        fprintf(stderr, "timeline: the run has more than %d steps, too many for a picture\n", MOST);
        return 0;
    }
    r->steps[++r->count] = *record;
    if (!fgets(line, sizeof line, lines))
        return wrong(r, "missing: there are fewer lines than records");
    const char *why = read_line(&r->steps[r->count], r->count, line);
    return why ? wrong(r, why) : 1;
}

/* What stands behind the last whole record and its line. */
static int read_end(struct run *r, FILE *lines)
{
    char line[LONGEST] = "";
    if (r->incomplete && (!fgets(line, sizeof line, lines) || strcmp(line, "end R5\n") != 0)) {
        fprintf(stderr, "timeline: the last record is incomplete, and the last line is not 'end R5'\n");
        return 0;
    }
    if (fgetc(lines) != EOF) {
        fprintf(stderr, "timeline: there are more lines than records\n");
        return 0;
    }
    return 1;
}

int read_run(struct run *r, FILE *requests, FILE *lines)
{
    struct step record = {0};
    size_t length;
    r->steps[0].next = 1;
    r->steps[0].state[1] = ACTIVE;
    while ((length = read_record(requests, &record)) == 4 * WORDS)
        if (!read_step(r, &record, lines))
            return 0;
    if (ferror(requests)) {
        fprintf(stderr, "timeline: cannot read the records\n");
        return 0;
    }
    r->incomplete = length > 0;
    return read_end(r, lines);
}
