/* Draws a run: a row for each step, a column for each task. A row has room for all that its step says, in columns as wide as the
 * longest text of the run, so that nothing need be left out. A long run is drawn in blocks, one below the other, each with its heads. */
#include <inttypes.h>
#include <string.h>
#include "timeline.h"

enum { MARGIN = 12, CHAR = 7, SIZE = 11, ROW = 20, BAR = 16, PER_BLOCK = 50, HEAD = 53, BETWEEN = 26, GUTTER = 28 };

#define MIDDLE " text-anchor=\"middle\""
#define END " text-anchor=\"end\""

static const char *const kinds[] = {"kind", "Create", "MyTid", "MyParentTid", "Yield", "Exit", "Send", "Receive", "Reply", "AwaitEvent", "Event",
                                    "own write"};

/* Where the columns stand: the end of the numbers, the starts of the others, and where all of it ends. */
static struct {
    int number, caller, asked, next, told, lanes, end;
} at;
static int lane; /* the width of a task's column */
static int base, top; /* the step before the block, and where the block starts */

static const char *bytes(int count)
{
    return count == 1 ? "byte" : "bytes";
}

/* What a step asks: its kind with every number that the kind takes, and how it is refused. */
static void say_asked(char *text, size_t room, const struct step *s)
{
    const int *w = s->words;
    int known = w[0] >= CREATE && w[0] <= OWN_WRITE;
    char more[128] = "", refused[24] = "";
    switch (w[0]) {
    case CREATE: snprintf(more, sizeof more, " priority %d, entry %" PRIu32, w[1], (uint32_t)w[2]); break;
    case SEND: snprintf(more, sizeof more, " to %d: %d %s at %d, room for %d at %d", w[1], w[3], bytes(w[3]), w[2], w[5], w[4]); break;
    case RECEIVE: snprintf(more, sizeof more, ": room for %d at %d", w[2], w[1]); break;
    case REPLY: snprintf(more, sizeof more, " to %d: %d %s at %d", w[1], w[3], bytes(w[3]), w[2]); break;
    case AWAIT_EVENT: snprintf(more, sizeof more, " %d", w[1]); break;
    case EVENT: snprintf(more, sizeof more, " %d: data %d", w[1], w[2]); break;
    case OWN_WRITE: snprintf(more, sizeof more, ": %d at %d", w[2], w[1]); break;
    default:
        if (!known)
            snprintf(more, sizeof more, " %d", w[0]);
    }
    if (s->verdict)
        snprintf(refused, sizeof refused, ", refused R%d", s->verdict);
    snprintf(text, room, "%s%s%s", kinds[known ? w[0] : 0], more, refused);
}

static void say_told(char *text, size_t room, const struct step *s)
{
    const char *cut = s->value_cut ? ", cut" : "";
    if (s->told == 'v' && s->from)
        snprintf(text, room, "v %d from %d%s", s->value, s->from, cut);
    else if (s->told == '-')
        snprintf(text, room, "-");
    else
        snprintf(text, room, "%c %d%s", s->told, s->value, cut);
}

static void say_task(char *text, size_t room, int tid, const char *nobody)
{
    if (tid)
        snprintf(text, room, "task %d", tid);
    else
        snprintf(text, room, "%s", nobody);
}

static int x_of(int tid)
{
    return at.lanes + (tid - 1) * lane + lane / 2;
}

static int y_of(int step)
{
    return top + HEAD + (step - base - 1) * ROW;
}

/* The texts of a row. */
static void row(int number, const struct step *s)
{
    char text[192];
    int y = y_of(number) + ROW / 2 + 4;
    const char *strong = s->verdict ? BOLD FILL(RED) : "";
    put("<text x=\"%d\" y=\"%d\" text-anchor=\"end\">%d</text>\n", at.number, y, number);
    say_task(text, sizeof text, s->caller, s->words[0] == EVENT ? "hardware" : "nobody");
    label(at.caller, y, SIZE, "", text);
    say_asked(text, sizeof text, s);
    label(at.asked, y, SIZE, strong, text);
    say_task(text, sizeof text, s->next, "nobody");
    label(at.next, y, SIZE, "", text);
    say_told(text, sizeof text, s);
    label(at.told, y, SIZE, s->told == 'e' ? BOLD FILL(RED) : s->value_cut ? BOLD : "", text);
}

/* The heads of a block, and a line under each row. */
static void heads(const struct run *r, int last)
{
    const struct step *end = &r->steps[last];
    char text[16];
    int y = top + 14;
    label(MARGIN, y, SIZE, BOLD, "step");
    label(at.caller, y, SIZE, BOLD, "who asks");
    label(at.asked, y, SIZE, BOLD, "for what");
    label(at.next, y, SIZE, BOLD, "runs next");
    label(at.told, y, SIZE, BOLD, "is told");
    label(at.lanes, y, SIZE, BOLD END, "task");
    label(at.lanes, y + 15, SIZE, FILL(GREY) END, "priority");
    label(at.lanes, y + 30, SIZE, FILL(GREY) END, "entry");
    for (int t = 1; t <= end->used; t++) {
        snprintf(text, sizeof text, "%d", t);
        label(x_of(t), y, SIZE, BOLD MIDDLE, text);
        snprintf(text, sizeof text, "%d", end->priority[t]);
        label(x_of(t), y + 15, SIZE, FILL(GREY) MIDDLE, text);
        snprintf(text, sizeof text, "%" PRIu32, end->entry[t]);
        label(x_of(t), y + 30, SIZE, FILL(GREY) MIDDLE, text);
    }
    put("<path stroke=\"#d8d8d8\" d=\"");
    for (int i = base; i <= last; i++)
        put("M%d %dH%d", MARGIN, y_of(i + 1), at.end);
    put("\"/>\n");
}

/* The states of one task, each run of a state as one bar; one that waits for an event has the event's number at its top. */
static void states(const struct run *r, int last, int tid)
{
    for (int i = base + 1, from = i; i <= last; i++) {
        int state = r->steps[i].state[tid], wide = state == EXITED ? 4 : BAR;
        if (i < last && r->steps[i + 1].state[tid] == state)
            continue;
        if (state != UNUSED)
            bar(x_of(tid) - wide / 2, y_of(from) + 1, wide, (i + 1 - from) * ROW - 1, (enum state)state);
        if (state == EVENT_BLOCKED)
            of_event(x_of(tid), y_of(from) + ROW / 2, r->steps[from].event[tid]);
        from = i + 1;
    }
}

static int woken(const struct step *s, int tid)
{
    return s[-1].state[tid] == EVENT_BLOCKED && s->state[tid] != EVENT_BLOCKED;
}

/* An event: one line, with a head at each task that it wakes, the farthest drawn first. Where it wakes more than one, each head has
 * its place among them: they waited in the order in which they came, and so they join the ready queues. */
static void wakes(const struct step *s, int y)
{
    int left = at.lanes - GUTTER + 10, count = 0;
    for (int t = 1; t <= s->used; t++)
        count += woken(s, t);
    for (int t = s->used; t >= 1; t--) {
        int place = 1;
        if (!woken(s, t))
            continue;
        for (int u = 1; u <= s->used; u++)
            place += woken(s, u) && s[-1].since[u] < s[-1].since[t];
        event(left, x_of(t) - BAR / 2, y, count > 1 ? place : 0);
    }
    if (!count)
        lost(left, y);
}

/* What a step did, over the bars. */
static void deed(int number, const struct step *s)
{
    int y = y_of(number) + ROW / 2;
    if (s->effect == 'c') {
        int way = s->taker > s->giver ? 1 : -1;
        delivery(x_of(s->giver) + way * BAR / 2, x_of(s->taker) - way * BAR / 2, y, s->count, s->delivery_cut);
    }
    if (s->effect == 'w')
        dot(x_of(s->caller), y);
    if (s->words[0] == EVENT && !s->verdict)
        wakes(s, y);
    if (s->told == 'e')
        mark(x_of(s->next), y, s->value);
}

/* One block: the steps from base + 1 to last. */
static void block(const struct run *r, int last)
{
    int lanes = r->steps[last].used;
    for (int i = base + 1; i <= last; i++)
        if (!r->steps[i].next)
            box(at.lanes, y_of(i), lanes * lane, ROW, IDLE);
    heads(r, last);
    for (int t = 1; t <= lanes; t++)
        states(r, last, t);
    for (int i = base + 1; i <= last; i++)
        deed(i, &r->steps[i]);
    put("<g" MONO " font-size=\"%d\">\n", SIZE);
    for (int i = base + 1; i <= last; i++)
        row(i, &r->steps[i]);
    put("</g>\n");
}

static int wider(int width, const char *text)
{
    int needed = CHAR * (int)strlen(text);
    return needed > width ? needed : width;
}

/* Sets the columns, by what stands in them. */
static void measure(const struct run *r)
{
    int lanes = r->steps[r->count].used, asked = 100, told = 60;
    char text[192];
    for (int i = 1; i <= r->count; i++) {
        say_asked(text, sizeof text, &r->steps[i]);
        asked = wider(asked, text);
        say_told(text, sizeof text, &r->steps[i]);
        told = wider(told, text);
    }
    lane = lanes <= 6 ? 64 : 48; /* between two bars four characters fit beside the head of an arrow */
    for (int t = 1; t <= lanes; t++) {
        snprintf(text, sizeof text, " %" PRIu32, r->steps[r->count].entry[t]);
        lane = wider(lane, text);
    }
    at.number = MARGIN + 4 * CHAR;
    at.caller = at.number + 14;
    at.asked = at.caller + 8 * CHAR + 12;
    at.next = at.asked + asked + 16;
    at.told = at.next + 8 * CHAR + 20;
    at.lanes = at.told + told + GUTTER;
    at.end = at.lanes + lanes * lane;
}

void draw(FILE *out, const struct run *r)
{
    measure(r);
    int blocks = r->count ? (r->count - 1) / PER_BLOCK + 1 : 1;
    int wide = at.end + MARGIN, high = KEY_HIGH + blocks * (HEAD + BETWEEN) + r->count * ROW;
    begin(out, wide < KEY_WIDE ? KEY_WIDE : wide, high, r->count);
    key();
    top = KEY_HIGH;
    for (base = 0; base < r->count || !base; base += PER_BLOCK) {
        int last = base + PER_BLOCK < r->count ? base + PER_BLOCK : r->count;
        block(r, last);
        top = y_of(last + 1) + BETWEEN;
    }
    if (r->incomplete)
        label(at.asked, top - BETWEEN + 16, SIZE, MONO BOLD FILL(RED), "end: an incomplete record, refused R5");
    put("</svg>\n");
}
