/* The counters of a -DCOVER build, kept in a file from run to run. */
#include "cover.h"

#include <stdio.h>
#include <stdlib.h>
#include <string.h>

unsigned long cover_paths[PATHS];
unsigned long cover_rules[EDITIONS][RULES][8];
unsigned long cover_ways[RULES][WAYS];
unsigned cover_rule, cover_state;

#define TEXT(name, text) text,
static const char *const path_text[] = {COVER_PATHS(TEXT)};
#undef TEXT
#define TEXT(name, first, second, text) text,
static const char *const rule_text[] = {COVER_RULES(TEXT)};
#undef TEXT
#define MASK(name, first, second, text) {first, second},
static const unsigned rule_mask[][EDITIONS] = {COVER_RULES(MASK)};
#undef MASK

static const char *const state_text[] = {
    "unused", "active", "ready", "send-b", "recv-b", "reply-b", "event-b",
    "exited"};
static const char *const way_text[WAYS] = {"up", "down", "old-old", "new-new"};

static FILE *counts(const char *mode)
{
    const char *name = getenv("PEER_COVER");
    return name ? fopen(name, mode) : NULL;
}

/* By edition, rule and state, in one row. */
static unsigned long *rule_count(int i)
{
    return &cover_rules[i / 8 / RULES][i / 8 % RULES][i % 8];
}

static bool rule_wanted(int i)
{
    return rule_mask[i / 8 % RULES][i / 8 / RULES] >> i % 8 & 1;
}

void cover_load(void)
{
    unsigned long n;
    FILE *f = counts("r");
    if (!f)
        return;
    for (int i = 0; i < PATHS && fscanf(f, "%lu", &n) == 1; i++)
        cover_paths[i] += n;
    for (int i = 0; i < EDITIONS * RULES * 8 && fscanf(f, "%lu", &n) == 1; i++)
        *rule_count(i) += n;
    for (int i = 0; i < RULES * WAYS && fscanf(f, "%lu", &n) == 1; i++)
        cover_ways[i / WAYS][i % WAYS] += n;
    fclose(f);
}

void cover_save(void)
{
    FILE *f = counts("w");
    if (!f)
        return;
    for (int i = 0; i < PATHS; i++)
        fprintf(f, "%lu\n", cover_paths[i]);
    for (int i = 0; i < EDITIONS * RULES * 8; i++)
        fprintf(f, "%lu\n", *rule_count(i));
    for (int i = 0; i < RULES * WAYS; i++)
        fprintf(f, "%lu\n", cover_ways[i / WAYS][i % WAYS]);
    fclose(f);
}

static int print_paths(void)
{
    int missed = 0;
    for (int i = 0; i < PATHS; i++) {
        printf("%9lu  %s\n", cover_paths[i], path_text[i]);
        missed += cover_paths[i] == 0;
    }
    return missed;
}

static int print_rules(int edition)
{
    int missed = 0;
    printf("\nimages refused by 2 in edition %d, by rule and by state of the "
           "record\n%-28s", edition + 1, "");
    for (int s = 0; s < 8; s++)
        printf(" %7s", state_text[s]);
    printf("\n");
    for (int i = 0; i < RULES; i++) {
        printf("%-28s", rule_text[i]);
        for (int s = 0; s < 8; s++) {
            int at = (edition * RULES + i) * 8 + s;
            if (rule_wanted(at)) {
                printf(" %7lu", *rule_count(at));
                missed += *rule_count(at) == 0;
            } else {
                printf(" %7s", *rule_count(at) ? "?" : "-");
            }
        }
        printf("\n");
    }
    return missed;
}

static int print_ways(void)
{
    int missed = 0;
    printf("\nconversions refused by 2, by rule and by where they go\n%-28s",
           "");
    for (int way = 0; way < WAYS; way++)
        printf(" %7s", way_text[way]);
    printf("\n");
    for (int i = 0; i < RULES; i++) {
        printf("%-28s", rule_text[i]);
        for (int way = 0; way < WAYS; way++) {
            printf(" %7lu", cover_ways[i][way]);
            missed += cover_ways[i][way] == 0;
        }
        printf("\n");
    }
    return missed;
}

static int cover_print(void)
{
    int missed = print_paths();
    missed += print_rules(0);
    missed += print_rules(1);
    missed += print_ways();
    for (int i = 0; i < PATHS; i++)
        if (cover_paths[i] == 0)
            printf("never reached: %s\n", path_text[i]);
    for (int i = 0; i < EDITIONS * RULES * 8; i++)
        if (rule_wanted(i) && *rule_count(i) == 0)
            printf("never reached: edition %d, rule \"%s\", state %s\n",
                   i / 8 / RULES + 1, rule_text[i / 8 % RULES],
                   state_text[i % 8]);
    for (int i = 0; i < RULES * WAYS; i++)
        if (cover_ways[i / WAYS][i % WAYS] == 0)
            printf("never reached: rule \"%s\", conversion %s\n",
                   rule_text[i / WAYS], way_text[i % WAYS]);
    return missed > 0;
}

void cover_program(int argc, char **argv)
{
    cover_load();
    if (argc == 2 && strcmp(argv[1], "cover") == 0)
        exit(cover_print());
    atexit(cover_save);
}

/* The refusals of a step, and what else would have refused it. */
void cover_refused(uint32_t verdict, uint32_t active, const struct request *q)
{
    bool far_write = ((q->arg[0] | q->arg[1]) & ~0xFF) != 0;
    switch (verdict) {
    case REFUSED_TABLE:
        MARK(STEP_UNUSED);
        break;
    case REFUSED_KIND:
        MARK(REFUSAL_3);
        MARK_IF(active == 0, ORDER_3_4);
        break;
    case REFUSED_NO_ACTIVE:
        MARK(REFUSAL_4);
        MARK_IF(q->kind == KIND_OWN_WRITE && far_write, ORDER_4_9);
        break;
    case REFUSED_EVENT:
        MARK(REFUSAL_8);
        MARK_IF(active == 0, IDLE_8);
        break;
    case REFUSED_WRITE:
        MARK(REFUSAL_9);
        break;
    }
}

/* A byte past the used slots, which has to be zero. */
bool cover_byte(uint8_t byte, bool is_state)
{
    bool state = is_state && byte <= STATE_EXITED;
    MARK_RECORD(state ? byte : STATE_UNUSED);
    MARK_ASK(state ? RULE_FIRST_RUN : is_state ? RULE_STATE : RULE_UNUSED);
    return true;
}

/* ---- senders whose target exits ---- */

/* What no table tells of a task. */
static struct {
    uint32_t receiver; /* who received its last message, 0: not known */
    uint32_t door;     /* whose exit let it go last, 0: nobody's */
    bool owed;         /* that -2 is not yet shown */
} past[TASKS + 1];

/* The senders that the Exit in hand lets go; none, while there is none. */
static struct {
    uint32_t number, head;
    bool is_in[TASKS + 1];
} let_go;

/* Of the table last asked whether its targets exist. */
static struct {
    uint32_t active, senders; /* senders: those whose target exited */
} closed;

void cover_forget(void)
{
    memset(past, 0, sizeof past);
    cover_cut_forget();
    cover_event_forget();
}

/* One sender, and those who stand behind it in the queue. */
static void count_let_go(const struct table *k, uint32_t tid)
{
    const struct task *t = &k->task[tid];
    uint32_t own = k->task[k->active].priority;
    MARK(t->priority < own ? DOOR_ABOVE
         : t->priority == own ? DOOR_EQUAL : DOOR_BELOW);
    MARK(k->ready[t->priority].length > 0 ? DOOR_TAIL : DOOR_FIRST_READY);
    MARK_IF(t->senders.length > 0, DOOR_CHAIN);
    MARK_IF(past[tid].door != 0, DOOR_TWICE);
    for (uint32_t later = t->next; later != 0; later = k->task[later].next) {
        MARK_IF(k->task[later].priority < t->priority, DOOR_PRIORITIES);
        MARK_IF(k->task[later].priority == t->priority && later < tid,
                DOOR_TIDS);
    }
}

/* The tasks that an Exit with senders leaves as they are. */
static void count_staying(const struct table *k)
{
    for (uint32_t tid = 1; tid <= k->used; tid++) {
        const struct task *t = &k->task[tid];
        if (t->state == STATE_REPLY_BLOCKED) {
            MARK(DOOR_REPLY);
            MARK_IF(past[tid].receiver == k->active, DOOR_RECEIVED);
        }
        MARK_IF(t->state == STATE_RECEIVE_BLOCKED &&
                t->waits_for != k->active, DOOR_ELSEWHERE);
    }
}

void cover_exit(const struct table *k)
{
    const struct queue *q = &k->task[k->active].senders;
    if (q->length == 0)
        return;
    MARK(q->length == 1 ? DOOR_ONE : DOOR_SEVERAL);
    MARK_IF(q->length == TASKS - 1, DOOR_CROWD);
    MARK_IF(past[k->active].door != 0, DOOR_AGAIN);
    count_staying(k);
    let_go.number = q->length;
    let_go.head = q->head;
    for (uint32_t tid = q->head; tid != 0; tid = k->task[tid].next) {
        count_let_go(k, tid);
        let_go.is_in[tid] = true;
        past[tid].door = k->active;
        past[tid].owed = true;
    }
}

/* The end of an entry, after the next task was shown its result. */
void cover_exited(bool exited, uint32_t next)
{
    if (!exited)
        return;
    MARK(next == 0 ? EXIT_TO_IDLE : EXIT_TO_TASK);
    if (let_go.number > 0)
        MARK(next == let_go.head ? DOOR_TO_HEAD
             : let_go.is_in[next] ? DOOR_TO_LATER : DOOR_TO_OTHER);
    memset(&let_go, 0, sizeof let_go);
}

void cover_shown(uint32_t tid)
{
    MARK_IF(past[tid].owed && !let_go.is_in[tid], DOOR_SHOWN_LATER);
    past[tid].owed = false;
}

void cover_sent(const struct table *k, uint32_t tid, bool taken)
{
    uint32_t door = past[k->active].door;
    MARK_IF(!taken && door != 0 && tid == door, DOOR_SEND);
    MARK_IF(taken && door != 0, DOOR_SEND_OTHER);
}

void cover_received(uint32_t receiver, uint32_t sender)
{
    past[sender].receiver = receiver;
}

void cover_replied(const struct table *k, uint32_t tid, bool taken)
{
    uint32_t receiver = past[tid].receiver;
    MARK_IF(!taken && past[tid].owed, DOOR_LET_GO_REPLY);
    MARK_IF(taken && receiver != 0 &&
            k->task[receiver].state == STATE_EXITED, DOOR_STAYED_REPLY);
}

void cover_targets(const struct table *k)
{
    closed.active = k->active;
    closed.senders = 0;
    for (uint32_t tid = 1; tid <= k->used; tid++)
        closed.senders += k->task[tid].state == STATE_RECEIVE_BLOCKED &&
                          k->task[k->task[tid].waits_for].state ==
                              STATE_EXITED;
}

/* An image that broke no rule: at whom its senders stand. */
void cover_taken(const struct table *k)
{
    bool sending = false, exited = false;
    cover_cut_taken(k);
    cover_entry_taken(k);
    cover_event_taken(k);
    for (uint32_t tid = 1; tid <= k->used; tid++) {
        const struct task *t = &k->task[tid];
        enum state target;
        exited = exited || t->state == STATE_EXITED;
        if (t->state != STATE_RECEIVE_BLOCKED)
            continue;
        target = k->task[t->waits_for].state;
        sending = true;
        MARK_IF(target == STATE_ACTIVE, TARGET_ACTIVE);
        MARK_IF(target == STATE_READY, TARGET_READY);
        MARK_IF(target == STATE_RECEIVE_BLOCKED, TARGET_SENDER);
        MARK_IF(target == STATE_REPLY_BLOCKED, TARGET_REPLY);
        MARK_IF(target == STATE_EVENT_BLOCKED, TARGET_EVENT);
    }
    MARK_IF(sending && exited, EXITED_ALONE);
}

/* An image refused by 2; counted if it has no other flaw than a target that
 * exited, with what else would have refused the step. */
void cover_closed(struct request q)
{
    bool no_kind = q.kind < KIND_CREATE || q.kind > KIND_OWN_WRITE;
    bool far_event = q.arg[0] < 0 || q.arg[0] >= EVENTS;
    bool far_write = ((q.arg[0] | q.arg[1]) & ~0xFF) != 0;
    if (!COVER_CLOSED)
        return;
    MARK(closed.senders == 1 ? CLOSED_ONE : CLOSED_SEVERAL);
    MARK_IF(closed.active == 0, CLOSED_IDLE);
    if (no_kind)
        MARK(CLOSED_3);
    else if (closed.active == 0 && q.kind != KIND_EVENT)
        MARK(CLOSED_4);
    else if (q.kind == KIND_EVENT && far_event)
        MARK(CLOSED_8);
    else if (q.kind == KIND_OWN_WRITE && far_write)
        MARK(CLOSED_9);
}
