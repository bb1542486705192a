/* The kernel step for C and C++ hosts. Link target/staticlib/libentry.a (host/library entry).
 *
 * A kernel is two buffers that the host keeps: the image, which is the task table as stored records, and the areas, 256
 * bytes of memory for each task, that of task 1 first. The host lends them for a call. The functions keep nothing between
 * calls and allocate nothing, so a host may have as many kernels as it has buffers; it may stop, store the buffers, and go on
 * from them later. Of other code they call memcpy, memmove and memset alone.
 *
 * The buffers of one call must not overlap, and nothing else may read or write them until it returns. They need no alignment.
 * All numbers are little-endian.
 *
 * Which code a task runs is the host's affair, and the image tells it: a record keeps the entry number that its task was made
 * with, any 32 bits, of which the kernel makes no use. A host gives each function of its tasks a number and hands that to
 * kernel_start or to a Create. By the word at image + (tid - 1) * BREDONYCH_RECORD + BREDONYCH_ENTRY it finds the function of
 * task tid, also in an image that was stored before the host was started again:
 *
 *     const uint8_t *b = image + (tid - 1) * BREDONYCH_RECORD + BREDONYCH_ENTRY;
 *     uint32_t entry = b[0] | (uint32_t)b[1] << 8 | (uint32_t)b[2] << 16 | (uint32_t)b[3] << 24;
 *
 * Any word may stand there: ask whether it is one of the host's numbers before a function is looked up by it, as host/gain.c
 * does.
 *
 * A kernel has one of two editions, which say how many tasks may wait for one event (bredonych_edition, below). The host chooses it at the
 * start and hands the same to every call for that kernel. No image holds it: a host that has kernels of both editions stores it beside the
 * image, as host/ticks.c does, and one that has a single edition for good writes it into its code. */
#ifndef BREDONYCH_H
#define BREDONYCH_H

#include <stdint.h>

#ifdef __cplusplus
extern "C" {
#endif

/* Lengths in bytes, and numbers of things. */
enum bredonych_size {
    BREDONYCH_IMAGE = 768,    /* 32 records of 24 bytes */
    BREDONYCH_RECORD = 24,    /* what is stored of one task, that of task 1 first */
    BREDONYCH_ENTRY = 20,     /* where the entry number stands in a record: its last four bytes */
    BREDONYCH_OLD_IMAGE = 640, /* the form before it, 32 records of 20 bytes without entry numbers: for kernel_convert alone */
    BREDONYCH_AREAS = 8192,   /* 32 areas */
    BREDONYCH_AREA = 256,     /* the bytes that a task owns */
    BREDONYCH_REQUEST = 24,   /* a kind and five arguments, four bytes each, signed */
    BREDONYCH_ANSWER = 24,    /* verdict, next task, result kind, value or fault, from, cut: four bytes each */
    BREDONYCH_TASKS = 32,     /* task ids are 1 to 32; 0 is no task */
    BREDONYCH_PRIORITIES = 32, /* 0 is the highest, 31 the lowest */
    BREDONYCH_EVENTS = 64     /* 0 to 63 */
};

/* How many tasks may wait for one event; in all else the editions are the same. Byte 3 of the record of a task that waits for an event is
 * its place among those who wait for it, from 0 in order of arrival; so in edition 1 it is 0.
 *
 * An image of edition 1 is taken in edition 2 too, as the same tasks in the same places, so that a host may go over. The other way it is
 * refused by 2 where two tasks wait for one event, and else taken. Calls for one kernel that go to and fro between the editions are each as
 * proved, but what is proved of lists of calls speaks of one edition. */
enum bredonych_edition {
    BREDONYCH_ONE_WAITS = 1, /* one at most: an AwaitEvent of an event that has its waiter is told fault -3 */
    BREDONYCH_MANY_WAIT = 2  /* any number: an event wakes all who wait for it, in order of arrival, and tells all the same */
};

/* What a request asks. The caller is the active task, except for an event, which comes from the hardware.
 * A buffer is an offset and a length within the task's own area. */
enum bredonych_kind {
    BREDONYCH_CREATE = 1,        /* priority, entry number: make a task; the value is its id. Any entry number is taken */
    BREDONYCH_MY_TID = 2,        /* the value is the caller's id */
    BREDONYCH_MY_PARENT_TID = 3, /* the value is its parent's id, 0 for task 1 */
    BREDONYCH_YIELD = 4,         /* let others run; the value is 0 */
    BREDONYCH_EXIT = 5,          /* the caller is no more; who waits for it to receive is told a fault */
    BREDONYCH_SEND = 6,          /* task, message offset and length, reply offset and length: the value is the reply's full length */
    BREDONYCH_RECEIVE = 7,       /* offset, length: the value is the message's full length, from its sender */
    BREDONYCH_REPLY = 8,         /* task, offset, length: the value is how many bytes were copied */
    BREDONYCH_AWAIT_EVENT = 9,   /* event: wait for it; the value is its data */
    BREDONYCH_EVENT = 10,        /* event, data: it happened, and who waits for it goes on; also when no task is active */
    BREDONYCH_OWN_WRITE = 11     /* offset, value: one byte of the active task's own area; nobody is chosen anew */
};

/* The verdict of a call. A refused step leaves the image and the areas as before. */
enum bredonych_verdict {
    BREDONYCH_ACCEPTED = 0,
    BREDONYCH_BAD_AREAS = 1,    /* the areas are not 8,192 bytes */
    BREDONYCH_BAD_TABLE = 2,    /* the image breaks a rule of a table */
    BREDONYCH_BAD_KIND = 3,     /* no such kind of request */
    BREDONYCH_NONE_ACTIVE = 4,  /* no task is active, and this is no event */
    BREDONYCH_BAD_RECORD = 5,   /* the request is not 24 bytes */
    BREDONYCH_BAD_PRIORITY = 6, /* kernel_start: the priority is outside 0 to 31 */
    BREDONYCH_BAD_IMAGE = 7,    /* the image is not 768 bytes; kernel_convert: image or out is neither 640 nor 768 */
    BREDONYCH_BAD_EVENT = 8,    /* the event that happened is outside 0 to 63 */
    BREDONYCH_BAD_WRITE = 9,    /* own write: offset or value outside 0 to 255 */
    BREDONYCH_BAD_ANSWER = 10,  /* the answer is not 24 bytes; nothing is written to it */
    BREDONYCH_ENTRY_LOST = 11,  /* kernel_convert: an entry number is not 0, and the old form has no place for it */
    BREDONYCH_BAD_EDITION = 12  /* the edition is neither 1 nor 2, by the whole word: 257 is none */
};

/* What the next task is told, the third word of an answer. */
enum bredonych_result {
    BREDONYCH_NOTHING = 0,
    BREDONYCH_VALUE = 1, /* the fourth word is the value, at least 0; the fifth is the sender after a Receive, else 0 */
    BREDONYCH_FAULT = 2  /* the fourth word is the fault: */
};

/* The faults of each kind of request, where more than one applies the first named. */
enum bredonych_fault {
    BREDONYCH_CREATE_PRIORITY = -1,  /* outside 0 to 31 */
    BREDONYCH_CREATE_FULL = -2,      /* all 32 tasks have been made */
    BREDONYCH_SEND_NO_TASK = -1,     /* never made, or it has exited */
    BREDONYCH_SEND_ITSELF = -2,
    BREDONYCH_SEND_NOT_RECEIVED = -2, /* told to a waiting sender: the task exited before it received the message */
    BREDONYCH_SEND_BUFFER = -3,      /* either buffer is not within the area */
    BREDONYCH_RECEIVE_BUFFER = -3,
    BREDONYCH_REPLY_NO_TASK = -1,
    BREDONYCH_REPLY_NOT_AWAITED = -2, /* that task waits for no reply */
    BREDONYCH_REPLY_BUFFER = -3,
    BREDONYCH_AWAIT_EVENT_NONE = -1, /* outside 0 to 63 */
    BREDONYCH_AWAIT_EVENT_TAKEN = -3, /* edition 1: another task waits for it; in edition 2 nobody is ever told so */
    BREDONYCH_EVENT_DATA = -2        /* told to each waiting task: the data was negative */
};

/* Whether a value was cut, the sixth word of an answer, at byte 20. A delivery is cut where the buffer that it goes to is shorter than
 * what was sent. The value of a Receive says it of the message; those of a Send and of the Reply to it say it of the reply, so that a
 * sender is not told whether its message was cut. With any other value, with a fault and with nothing the word is 0. A host that uses
 * only what came whole asks for both, a value and its last word:
 *
 *     if (answer[8] == BREDONYCH_VALUE && answer[20] == BREDONYCH_WHOLE) */
enum bredonych_cut {
    BREDONYCH_WHOLE = 0,
    BREDONYCH_CUT = 1 /* the buffer is full, and the end of what was sent is missing */
};

/* Starts a kernel: writes the image in which task 1, of this priority and this entry number, is active, and answers 0. An edition that is
 * none is refused by 12, then a priority outside 0 to 31 by 6, whatever the image's length; then an image that is not 768 bytes by 7. No
 * entry number is refused. A refusal writes no byte. The image is the same in both editions. The areas are the host's to clear. */
uint32_t kernel_start(uint32_t edition, uint32_t priority, uint32_t entry, uint8_t *image, uint64_t image_length);

/* One step, in the edition that the kernel was started in: does what the request asks and answers the verdict, which is also the
 * answer's first word. The image and the areas are changed in place; refused, they are left as they are, and the answer says who is
 * active (refusals 3, 4, 8 and 9) or 0. Refused by 10, the answer is not written either; 12 comes next, and before all the others. */
uint32_t kernel_step(uint32_t edition, uint8_t *image, uint64_t image_length, uint8_t *areas, uint64_t areas_length,
                     const uint8_t *request, uint64_t request_length, uint8_t *answer, uint64_t answer_length);

/* Converts an image: reads the one at image and writes the same kernel to out, each in the form that has its length, 640 or 768
 * bytes, and answers 0. From the old form to the new every entry number is 0; from the new to the old all have to be 0, those of
 * tasks that have exited too. Equal lengths copy what was checked. Refused by 12 where the edition is none; then by 7 where either
 * length is no form's; then by 2 where the image breaks a rule of a table of that edition; then by 11 where an entry number would be
 * lost. A refusal writes no byte. image and out must not overlap: nothing is converted in place. kernel_step takes the new form alone,
 * so a host that was updated converts what it had stored, once; what it had stored before there were editions is of edition 1. */
uint32_t kernel_convert(uint32_t edition, const uint8_t *image, uint64_t image_length, uint8_t *out, uint64_t out_length);

#ifdef __cplusplus
}
#endif

#endif
