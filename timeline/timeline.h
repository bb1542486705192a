/* A picture of a run: what read.c takes from the requests and the wide lines of kernel-run, and draw.c draws. */
#ifndef TIMELINE_H
#define TIMELINE_H

#include <stdint.h>
#include <stdio.h>

enum { TASKS = 32, WORDS = 6, AREA = 256, MOST = 1000 };

enum kind { CREATE = 1, MY_TID, MY_PARENT_TID, YIELD, EXIT, SEND, RECEIVE, REPLY, AWAIT_EVENT, EVENT, OWN_WRITE };

/* By the paper's names: a send-blocked task waits in Receive, a receive-blocked one in Send. */
enum state { UNUSED, ACTIVE, READY, SEND_BLOCKED, RECEIVE_BLOCKED, REPLY_BLOCKED, EVENT_BLOCKED, EXITED };

/* One step: what it asked, and what its line shows. Tids are 1 to 32; 0 is nobody. */
struct step {
    int words[WORDS]; /* signed, of 32 bits */
    int caller; /* who was active before it; nobody asks for an event */
    int verdict, next;
    char told; /* '-', 'v' or 'e' */
    int value, from, value_cut; /* 1 where the delivery that gave the value was cut */
    char effect; /* '-', 'c' or 'w' */
    int source, dest, count, delivery_cut; /* a write has its place in dest */
    int giver, taker; /* of a delivery */
    int used;
    unsigned char state[TASKS + 1], priority[TASKS + 1];
    int event[TASKS + 1], since[TASKS + 1]; /* of a task that waits for an event: which, and the step of its AwaitEvent */
    uint32_t entry[TASKS + 1]; /* a task's entry number: the host finds the task's code by it */
};

struct run {
    struct step steps[MOST + 1]; /* before the first stands how the run starts */
    int count;
    int incomplete; /* whether the last record is */
};

/* read.c: fills in a run; where the two files are not one, says so in a line on standard error and answers 0. */
int read_run(struct run *r, FILE *requests, FILE *lines);

/* draw.c */
void draw(FILE *out, const struct run *r);

/* key.c: what the marks mean, from the top of the picture to KEY_HIGH; it takes KEY_WIDE at least. */
enum { KEY_WIDE = 716, KEY_HIGH = 224 };
void key(void);

/* svg.c: the marks. */
#define INK "#1a1a1a"
#define GREY "#5a5a5a"
#define RED "#b71c1c"
#define IDLE "#efe9e1"
#define MONO " font-family=\"monospace\""
#define BOLD " font-weight=\"bold\""
#define FILL(colour) " fill=\"" colour "\""

void begin(FILE *out, int wide, int high, int steps);
void put(const char *format, ...);
void label(int x, int y, int size, const char *more, const char *text);
void box(int x, int y, int w, int h, const char *colour);
void bar(int x, int y, int w, int h, enum state state);
void delivery(int from, int end, int y, int count, int cut);
void of_event(int x, int y, int number);
void event(int from, int end, int y, int place);
void lost(int from, int y);
void mark(int x, int y, int fault);
void dot(int x, int y);

#endif
