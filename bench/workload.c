/* workload TASKS STEPS SEED: writes a mixed workload as request records, the same ones for the same words.
 *
 * Task 1 idles, some tasks serve, the others ask them. First come the requests that make them all, then STEPS more. What each task
 * asks depends on what it was told, so the peer's kernel is stepped beside it, in edition 1. Send, Receive and Reply make about 79 of
 * 100. */
#include <stdio.h>
#include <stdlib.h>

#include "generate.h"

static struct table table;
static uint8_t areas[AREAS_BYTES];
static uint64_t seed;
static uint32_t tasks, servers;

/* Whom a server has received from and not yet replied to, the first first. */
static uint8_t waiting[TASKS + 1][TASKS];
static uint32_t waiters[TASKS + 1];

/* How the requests went, for the line at the end. */
static unsigned long asked[12], told[3], all;

static int32_t between(uint32_t first, uint32_t end)
{
    return (int32_t)(first + below(&seed, end - first));
}

static void go(int32_t kind, int32_t a, int32_t b, int32_t c, int32_t d, int32_t e)
{
    struct request q = {kind, {a, b, c, d, e}};
    uint8_t record[RECORD_BYTES];
    request_write(&q, record);
    fwrite(record, 1, sizeof record, stdout);
    struct answer x = table_step(&table, areas, &q);
    if (x.verdict != 0) {
        fprintf(stderr, "workload: kind %d was refused by %u\n", (int)kind, (unsigned)x.verdict);
        exit(1);
    }
    if (x.result.from != 0)
        waiting[x.next][waiters[x.next]++] = (uint8_t)x.result.from;
    asked[kind]++;
    told[x.result.kind]++;
    all++;
}

static bool serves(uint32_t tid)
{
    return tid >= 2 && tid < 2 + servers;
}

/* Makes every task. One that runs before task 1 goes on waits for a sender, for an event of its own, or for a server. */
static void make_all(void)
{
    for (uint32_t tid = 2; tid <= tasks; tid++) {
        while (table.active != 1) {
            int32_t active = (int32_t)table.active;
            if (serves(table.active))
                go(KIND_RECEIVE, 0, 64, 0, 0, 0);
            else if (active < EVENTS)
                go(KIND_AWAIT_EVENT, active, 0, 0, 0, 0);
            else
                go(KIND_SEND, 2, 0, 4, 0, 4);
        }
        uint32_t above = tid % 2 == 1 ? 2 : 12;
        int32_t entry = -(int32_t)tid; /* a word of which no byte is 0 */
        go(KIND_CREATE, (int32_t)(serves(tid) ? tid * 3 % 4 + above : 4 + tid * 5 % 8), entry, 0, 0, 0);
    }
}

static void serve(uint32_t tid)
{
    uint32_t roll = below(&seed, 100);
    if (waiters[tid] > 0 && (roll < 95 || tasks == 2)) {
        bool bad = roll >= 93 && tasks > 2;
        int32_t sender = waiting[tid][0], offset = between(0, 100), length = bad ? 300 : between(4, 40);
        if (!bad) {
            waiters[tid]--;
            for (uint32_t i = 0; i < waiters[tid]; i++)
                waiting[tid][i] = waiting[tid][i + 1];
        }
        go(KIND_REPLY, sender, offset, length, 0, 0);
    } else if (roll < 97) {
        int32_t offset = between(0, 64), length = between(8, 64);
        go(KIND_RECEIVE, offset, length, 0, 0, 0);
    } else if (roll < 98) {
        go(KIND_RECEIVE, 250, 20, 0, 0, 0);
    } else {
        int32_t offset = between(0, 256), byte = between(0, 256);
        go(KIND_OWN_WRITE, offset, byte, 0, 0, 0);
    }
}

static void ask(uint32_t tid)
{
    uint32_t roll = below(&seed, 100);
    int32_t a = between(0, 100), b = between(4, 40), c = between(0, 100), d = between(4, 40);
    if (roll < 55)
        go(KIND_SEND, between(2, 2 + servers), a, b, c, d);
    else if (roll < 62)
        go(KIND_AWAIT_EVENT, between(0, 16), 0, 0, 0, 0);
    else if (roll < 69)
        go(KIND_OWN_WRITE, a, b, 0, 0, 0);
    else if (roll < 76)
        go(KIND_MY_TID, 0, 0, 0, 0, 0);
    else if (roll < 82)
        go(KIND_MY_PARENT_TID, 0, 0, 0, 0, 0);
    else if (roll < 92)
        go(KIND_YIELD, 0, 0, 0, 0, 0);
    else if (roll < 94)
        go(KIND_SEND, TASKS + 8, a, b, c, d); /* no such task */
    else if (roll < 96)
        go(KIND_SEND, (int32_t)tid, a, b, c, d);
    else if (roll < 98)
        go(KIND_SEND, 2, 250, 40, c, d);
    else
        go(KIND_REPLY, between(1, tasks + 1), a, b, 0, 0);
}

/* An event that somebody waits for, or any where nobody does. */
static int32_t some_event(void)
{
    int32_t found[EVENTS];
    uint32_t count = 0;
    for (int32_t e = 0; e < EVENTS; e++)
        if (table.waiters[e].length > 0)
            found[count++] = e;
    return count > 0 ? found[below(&seed, count)] : between(0, EVENTS);
}

static bool awaited(void)
{
    for (int32_t e = 0; e < EVENTS; e++)
        if (table.waiters[e].length > 0)
            return true;
    return false;
}

static void one(void)
{
    uint32_t tid = table.active;
    bool idle = tid == 0 || (tid == 1 && tasks > 2);
    if (tid == 0 || (awaited() && chance(&seed, idle ? 50 : 4)) || chance(&seed, 1)) {
        int32_t event = some_event(), data = between(0, 1000);
        go(KIND_EVENT, event, data, 0, 0, 0);
    } else if (idle) {
        go(chance(&seed, 90) ? KIND_YIELD : KIND_MY_TID, 0, 0, 0, 0, 0);
    } else if (serves(tid)) {
        serve(tid);
    } else {
        ask(tid);
    }
}

int main(int argc, char **argv)
{
    if (argc != 4) {
        fputs("usage: workload TASKS STEPS SEED\n", stderr);
        return 2;
    }
    tasks = (uint32_t)strtoul(argv[1], NULL, 10);
    unsigned long steps = strtoul(argv[2], NULL, 10);
    seed = strtoull(argv[3], NULL, 10);
    if (tasks < 2 || tasks > TASKS) {
        fprintf(stderr, "workload: from 2 to %d tasks\n", TASKS);
        return 2;
    }
    servers = tasks == 2 ? 1 : tasks <= 16 ? 4 : 8;
    table_start(&table, EDITION_SOLE, FIRST_PRIORITY, 0);
    make_all();
    unsigned long made = all;
    for (unsigned long i = 0; i < steps; i++)
        one();
    fprintf(stderr, "%u tasks: %lu requests to make them, %lu more; of 100 %lu Send, Receive, Reply, %lu told values, %lu faults\n",
            (unsigned)tasks, made, steps, (asked[KIND_SEND] + asked[KIND_RECEIVE] + asked[KIND_REPLY]) * 100 / all,
            told[RESULT_VALUE] * 100 / all, told[RESULT_FAULT] * 100 / all);
    return 0;
}
