/* The kernel of document 01: its table, its step and its stored forms. */
#ifndef PEER_KERNEL_H
#define PEER_KERNEL_H

#include <stdbool.h>
#include <stdint.h>

enum {
    TASKS = 32,
    PRIORITIES = 32,
    EVENTS = 64,
    AREA = 256,
    AREAS_BYTES = TASKS * AREA,
    SLOT_BYTES = 24,
    IMAGE_BYTES = TASKS * SLOT_BYTES,
    OLD_SLOT_BYTES = 20, /* a stored task of before the entry numbers */
    OLD_IMAGE_BYTES = TASKS * OLD_SLOT_BYTES,
    RECORD_BYTES = 24,
    ANSWER_BYTES = 24,
    FIRST_PRIORITY = 16
};

/* The numbers are those of byte 0 of a stored task. */
enum state {
    STATE_UNUSED = 0,
    STATE_ACTIVE = 1,
    STATE_READY = 2,
    STATE_SEND_BLOCKED = 3,    /* called Receive, waits for a sender */
    STATE_RECEIVE_BLOCKED = 4, /* called Send, not yet received */
    STATE_REPLY_BLOCKED = 5,   /* received, no reply yet */
    STATE_EVENT_BLOCKED = 6,
    STATE_EXITED = 7
};

enum request_kind {
    KIND_CREATE = 1,
    KIND_MY_TID = 2,
    KIND_MY_PARENT_TID = 3,
    KIND_YIELD = 4,
    KIND_EXIT = 5,
    KIND_SEND = 6,
    KIND_RECEIVE = 7,
    KIND_REPLY = 8,
    KIND_AWAIT_EVENT = 9,
    KIND_EVENT = 10,
    KIND_OWN_WRITE = 11
};

enum result_kind {
    RESULT_NOTHING = 0,
    RESULT_VALUE = 1,
    RESULT_FAULT = 2
};

enum refusal {
    REFUSED_AREAS = 1,
    REFUSED_TABLE = 2,
    REFUSED_KIND = 3,
    REFUSED_NO_ACTIVE = 4,
    REFUSED_RECORD = 5,
    REFUSED_PRIORITY = 6,
    REFUSED_IMAGE = 7,
    REFUSED_EVENT = 8,
    REFUSED_WRITE = 9,
    REFUSED_ANSWER = 10,
    REFUSED_ENTRY = 11,
    REFUSED_EDITION = 12
};

/* Two rules for events. The host says which one holds, at the start and with
   every image, since no image tells. */
enum edition {
    EDITION_SOLE = 1, /* one task may wait for an event */
    EDITION_CROWD = 2 /* any number, and all are woken */
};

static inline bool edition_is_good(uint32_t edition)
{
    return edition == EDITION_SOLE || edition == EDITION_CROWD;
}

struct request {
    int32_t kind, arg[5];
};

struct result {
    uint32_t kind;
    int32_t number;
    uint32_t from;
    bool cut; /* the copy behind this value had less room than was sent */
};

struct answer {
    uint32_t verdict, next;
    struct result result;
};

struct buffer {
    uint32_t offset, length;
};

/* A queue of tasks, linked through their next fields; tid 0 means nobody. */
struct queue {
    uint32_t head, tail, length;
};

/* The buffers and waits_for hold something only in the states that use them;
   in any other state their content is left over and means nothing. */
struct task {
    enum state state;
    uint32_t priority, parent;
    uint32_t entry;        /* tells the host its code; here only kept */
    uint32_t next;         /* who stands behind this task in its one queue */
    uint32_t waits_for;    /* the target of a Send, or an event */
    struct buffer message; /* also the buffer of a waiting Receive */
    struct buffer reply;
    struct result result;  /* what a ready task is shown when it runs */
    struct queue senders;
};

/* Either a good table or, with used 0, the all-unused one. */
struct table {
    uint32_t edition; /* the rule that holds; in no image */
    uint32_t used;   /* slots given out: tids 1 to used */
    uint32_t active; /* a tid, 0 for none */
    struct task task[TASKS + 1]; /* by tid; number 0 is not a task */
    struct queue ready[PRIORITIES];
    struct queue waiters[EVENTS]; /* by the first edition, one at most */
};

/* kernel.c */

/* A fresh kernel. Returns 0, or 12 or 6 with the all-unused table. */
uint32_t table_start(struct table *k, uint32_t edition, uint32_t priority,
                     uint32_t entry);

/* One step of a good table over AREAS_BYTES of areas. */
struct answer table_step(struct table *k, uint8_t *areas,
                         const struct request *q);

/* Puts a task that stands in no queue at the tail of q, a queue of k. */
void table_append(struct table *k, struct queue *q, uint32_t tid);

bool buffer_is_good(int32_t offset, int32_t length);

/* image.c */

/* False, with the all-unused table, where the IMAGE_BYTES at image are not
   the image of a table that is good by this edition, which is 1 or 2. */
bool table_read(struct table *k, uint32_t edition, const uint8_t *image);

/* Writes the IMAGE_BYTES of a good table; of the all-unused one, nothing. */
void table_write(struct table *k, uint8_t *image);

struct request request_read(const uint8_t *record);
void request_write(const struct request *q, uint8_t *record);

/* The byte entry. Returns the verdict, which is also in the answer. */
uint32_t peer_step(uint32_t edition, uint8_t *image, uint64_t image_len,
                   uint8_t *areas, uint64_t areas_len,
                   const uint8_t *record, uint64_t record_len,
                   uint8_t *answer, uint64_t answer_len);

/* Writes the image of a fresh kernel; refused by 12, then 6, then 7, without a
   byte written. */
uint32_t peer_start(uint32_t edition, uint32_t priority, uint32_t entry,
                    uint8_t *image, uint64_t image_len);

/* convert.c */

/* Writes the image into out; which form each of them has is told by its own
   length, and both may have the same. Refused by 12, then 7, then 2, then 11,
   without a byte written. */
uint32_t peer_convert(uint32_t edition, const uint8_t *image,
                      uint64_t image_len, uint8_t *out, uint64_t out_len);

#endif
