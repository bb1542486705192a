/* The clock service for C and C++ hosts: a clock, its notifier and its clients, as tasks above the kernel of bredonych.h. Link
 * target/staticlib/libclock_tasks.a (host/library clock_tasks) beside libentry.a. docs/CLOCK.md says what the clock does.
 *
 * Each task is a machine whose state the host keeps, as bytes. Two functions drive it, the same for each sort of task:
 *
 *   X_asks   where the kernel shows the task as active: writes the request that it makes now, for kernel_step
 *   X_told   whenever an answer of kernel_step names the task as next: hands it that answer, and its own area to read
 *
 * The functions keep nothing between calls and allocate nothing. The buffers of one call must not overlap. Any bytes may be
 * handed in: what is no state is refused, and a refused call writes nothing. All numbers are little-endian. */
#ifndef BREDONYCH_CLOCK_H
#define BREDONYCH_CLOCK_H

#include <stdint.h>

#ifdef __cplusplus
extern "C" {
#endif

/* Lengths in bytes. docs/FORMATS.md says what stands where. */
enum bredonych_clock_size {
    BREDONYCH_CLOCK_STATE = 232,   /* what a host keeps of a clock */
    BREDONYCH_NOTIFIER_STATE = 16, /* of a notifier */
    BREDONYCH_CLIENT_STATE = 32,   /* of a client's call */
    BREDONYCH_CLOCK_OUTCOME = 8,   /* what came of a call: a kind and a value, four bytes each */
    BREDONYCH_CLOCK_MESSAGE = 8,   /* a message to the clock, and its answer */
    BREDONYCH_CLOCK_SLEEPERS = 16  /* as many as may sleep at one time */
};

/* What a client may ask: the first word of a message. The second word is the argument. */
enum bredonych_clock_op {
    BREDONYCH_TIME = 2,       /* argument 0: the count */
    BREDONYCH_DELAY = 3,      /* ticks, signed: the count at the tick that is so many ahead */
    BREDONYCH_DELAY_UNTIL = 4 /* a count, unsigned: the count at the first tick at which it is reached */
};

/* What came of a call: the first word of an outcome says of which sort the second is. No value of one sort is ever one of another. */
enum bredonych_clock_outcome {
    BREDONYCH_CALL_RUNS = 0,    /* it is not over; the value is 0 */
    BREDONYCH_CALL_COUNT = 1,   /* the tick count at the answer, unsigned, all 32 bits */
    BREDONYCH_CALL_REFUSED = 2, /* the clock refused: a number of bredonych_clock_refusal */
    BREDONYCH_CALL_FAULT = 3,   /* the kernel did: a fault of Send, -1 where the clock does not exist */
    BREDONYCH_CALL_GARBLED = 4  /* what was answered is no answer of a clock to what was asked; the value is 0 */
};

/* Why the clock refuses. */
enum bredonych_clock_refusal {
    BREDONYCH_CLOCK_NEGATIVE = -2, /* a Delay below 0 */
    BREDONYCH_CLOCK_FULL = -3,     /* 16 sleep already, and this delay is not due at once */
    BREDONYCH_CLOCK_FORM = -4      /* no message, a tick that the notifier did not send, or a delay from one who sleeps */
};

/* The verdict of a function below: 0, or a number of bredonych_verdict, whose meaning here is
 *    1 the area is not 256 bytes             6 the notifier's priority is outside 0 to 31
 *    2 the bytes are no state                7 the state has another length
 *    3 no call of a client                   8 the event is outside 0 to 63
 *    4 the call is over: it asks nothing     9 the offset is above 240
 *    5 the request is not 24 bytes          10 the answer is not 24 bytes, or the outcome not 8
 * Where more than one holds, the one is given that is asked first: 5, 10, 1; 3, 9; 6; 8; then 7, 2, 4. */

/* A clock as it starts. Its first request makes its notifier, a task of this priority, whose code is the notifier below. */
uint32_t clock_start(uint32_t priority, uint8_t *state, uint64_t state_length);
uint32_t clock_asks(uint8_t *state, uint64_t state_length, uint8_t *request, uint64_t request_length);
uint32_t clock_told(uint8_t *state, uint64_t state_length, const uint8_t *answer, uint64_t answer_length, const uint8_t *area,
                    uint64_t area_length);

/* A notifier as it starts: it learns from the kernel who made it, and sends that task a tick whenever the event happens. */
uint32_t notifier_start(uint32_t event, uint8_t *state, uint64_t state_length);
uint32_t notifier_asks(uint8_t *state, uint64_t state_length, uint8_t *request, uint64_t request_length);
uint32_t notifier_told(uint8_t *state, uint64_t state_length, const uint8_t *answer, uint64_t answer_length, const uint8_t *area,
                       uint64_t area_length);

/* A call of the clock with this task id by a task that is active: what it asks, and where in its own area there are 16 bytes for the message
 * and the answer (an offset of at most 240). A task has one call at a time, and makes no request of its own until it is over. */
uint32_t client_start(uint32_t clock, uint32_t op, uint32_t argument, uint32_t offset, uint8_t *state, uint64_t state_length);
uint32_t client_asks(uint8_t *state, uint64_t state_length, uint8_t *request, uint64_t request_length);
uint32_t client_told(uint8_t *state, uint64_t state_length, const uint8_t *answer, uint64_t answer_length, const uint8_t *area,
                     uint64_t area_length);

/* What came of it. The state is not changed. */
uint32_t client_outcome(const uint8_t *state, uint64_t state_length, uint8_t *outcome, uint64_t outcome_length);

#ifdef __cplusplus
}
#endif

#endif
