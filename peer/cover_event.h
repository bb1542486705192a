/* The paths of request P7, and its marks: who waits for an event, which edition
 * was given, and which word that is no edition. */
#ifndef PEER_COVER_EVENT_H
#define PEER_COVER_EVENT_H

/* Always in this order. */
#define BY_EDITION(X, name, text) \
    X(name##_1, "edition 1: " text) \
    X(name##_2, "edition 2: " text)

/* Words that are no edition, with nothing else wrong; some of them are one to a
 * program that looks at fewer bits. */
#define WORD_PATHS(X, name, text) \
    X(name##_WORD_0, text ", edition 0") \
    X(name##_WORD_3, text ", edition 3") \
    X(name##_WORD_ALL, text ", edition -1") \
    X(name##_WORD_257, text ", edition 257") \
    X(name##_WORD_258, text ", edition 258") \
    X(name##_WORD_65537, text ", edition 65537") \
    X(name##_WORD_HIGH, text ", edition 2^31") \
    X(name##_WORD_HIGH_1, text ", edition 2^31 + 1") \
    X(name##_WORD_ANY, text ", some other word")

/* What a task met before only a run can tell. "Several" waited for one event,
 * and so only by edition 2. */
#define AWAIT_PATHS(X) \
    BY_EDITION(X, AWAIT_RANGE, "AwaitEvent -1") \
    BY_EDITION(X, AWAIT_FIRST, "AwaitEvent, the first") \
    BY_EDITION(X, AWAIT_OTHER, "AwaitEvent, others wait for another event") \
    BY_EDITION(X, AWAIT_AGAIN, "AwaitEvent for what woke it last") \
    X(AWAIT_TAKEN, "edition 1: AwaitEvent -3") \
    X(AWAIT_SECOND, "edition 2: AwaitEvent behind one") \
    X(AWAIT_LATER, "edition 2: AwaitEvent behind several") \
    X(AWAIT_LAST, "edition 2: AwaitEvent behind 31") \
    BY_EDITION(X, EVENT_NONE_ACTIVE, "Event without waiter, a task active") \
    BY_EDITION(X, EVENT_NONE_IDLE, "Event without waiter, idle") \
    BY_EDITION(X, EVENT_TURNS, "Event without waiter, another goes on") \
    BY_EDITION(X, EVENT_ELSEWHERE, "Event, only another event has waiters") \
    BY_EDITION(X, EVENT_ONE_ACTIVE, "Event wakes one, a task active") \
    BY_EDITION(X, EVENT_ONE_IDLE, "Event wakes one, idle") \
    BY_EDITION(X, EVENT_CORRUPT, "Event wakes one, data negative") \
    BY_EDITION(X, EVENT_ZERO, "Event wakes one, data 0") \
    BY_EDITION(X, EVENT_DATA, "Event wakes one, data above 0") \
    BY_EDITION(X, EVENT_LATER, "result of an event shown at a later step")

#define WOKEN_PATHS(X) \
    X(SEVERAL_ACTIVE, "Event wakes several, a task active") \
    X(SEVERAL_IDLE, "Event wakes several, idle") \
    X(SEVERAL_CORRUPT, "Event wakes several, data negative") \
    X(SEVERAL_ZERO, "Event wakes several, data 0") \
    X(SEVERAL_DATA, "Event wakes several, data above 0") \
    X(SEVERAL_MOST, "Event wakes all others, a task active") \
    X(SEVERAL_ALL, "Event wakes all 32") \
    X(SEVERAL_AGAIN, "Event wakes several that it woke before") \
    X(SEVERAL_STAY, "Event wakes several, those of another stay") \
    X(SEVERAL_SENDERS, "Event wakes several, one with senders") \
    X(SEVERAL_TO_HEAD, "Event wakes several, the first goes on") \
    X(SEVERAL_TO_LATER, "Event wakes several, a later one goes on") \
    X(SEVERAL_TO_SAME, "Event wakes several, the interrupted goes on") \
    X(SEVERAL_TO_OTHER, "Event wakes several, one ready before goes on") \
    X(WOKEN_ABOVE, "woken of several: better than the interrupted") \
    X(WOKEN_EQUAL, "woken of several: equal to the interrupted") \
    X(WOKEN_BELOW, "woken of several: worse than the interrupted") \
    X(WOKEN_FIRST_READY, "woken of several: alone at its priority") \
    X(WOKEN_TAIL, "woken of several: behind one ready before") \
    X(WOKEN_ALIKE, "woken of several: two of a priority, lower tid first") \
    X(WOKEN_TIDS, "woken of several: two of a priority, higher tid first") \
    X(WOKEN_BETTER_LAST, "woken of several: the better priority last") \
    X(WOKEN_BETTER_FIRST, "woken of several: the better priority first") \
    X(LATER_ZERO, "woken of several: data 0 shown at a later step") \
    X(LATER_DATA, "woken of several: data above 0 shown later") \
    X(LATER_CORRUPT, "woken of several: -2 shown later")

/* Steps through images, by their verdict; 6, 10, 11 and 12 are elsewhere. */
#define STEP_PATHS(X) \
    BY_EDITION(X, STEP_OK, "step through an image") \
    BY_EDITION(X, STEP_R1, "refusal 1") \
    BY_EDITION(X, STEP_R2, "refusal 2") \
    BY_EDITION(X, STEP_R3, "refusal 3") \
    BY_EDITION(X, STEP_R4, "refusal 4") \
    BY_EDITION(X, STEP_R5, "refusal 5") \
    BY_EDITION(X, STEP_R7, "refusal 7") \
    BY_EDITION(X, STEP_R8, "refusal 8") \
    BY_EDITION(X, STEP_R9, "refusal 9")

#define WAITER_PATHS(X) \
    BY_EDITION(X, WAITER_NONE, "image taken, nobody waits for an event") \
    BY_EDITION(X, WAITER_ALONE, "image taken, one waiter") \
    BY_EDITION(X, WAITER_APART, "image taken, each event has one waiter") \
    BY_EDITION(X, WAITER_BOTH, "image taken, the other takes it too") \
    X(WAITER_ONLY, "edition 2: image taken, edition 1 refuses it") \
    X(CROWD_TWO, "image taken, two of one event") \
    X(CROWD_MORE, "image taken, more of one event") \
    X(CROWD_ALL, "image taken, 32 of one event") \
    X(CROWD_SEVERAL, "image taken, several of one and several of another") \
    X(CROWD_TIDS, "image taken, places of waiters as their tids") \
    X(CROWD_TURNED, "image taken, a higher tid waits before a lower") \
    X(CROWD_SENDERS, "image taken, several waiters beside several senders") \
    X(CROWD_READY, "image taken, several waiters beside several ready") \
    X(CROWD_IDLE, "image taken, several of one event, idle") \
    X(CROWD_FIRST, "image taken, several of event 0") \
    X(CROWD_LAST, "image taken, several of event 63") \
    X(CROWD_EXITED, "image taken, several of one event, a task exited") \
    X(LEFT_FIRST, "image left, the caller waits first") \
    X(LEFT_BEHIND, "image left, the caller waits behind others") \
    X(LEFT_DATA, "image left, two or more of the woken hold data") \
    X(LEFT_CORRUPT, "image left, two or more of the woken hold -2") \
    X(LEFT_STAY, "image left, several of another event stay") \
    X(OTHER_1, "edition 1: refusal 2, edition 2 takes it") \
    BY_EDITION(X, OTHER_NEITHER, "refusal 2, neither takes it") \
    BY_EDITION(X, PLACE_BAD_1, "refusal 1, a waiter's place is wrong") \
    BY_EDITION(X, PLACE_BAD_3, "refusal 2, a waiter's place, where 3 holds") \
    BY_EDITION(X, PLACE_BAD_4, "refusal 2, a waiter's place, where 4 holds") \
    BY_EDITION(X, PLACE_BAD_8, "refusal 2, a waiter's place, where 8 holds") \
    BY_EDITION(X, PLACE_BAD_9, "refusal 2, a waiter's place, where 9 holds")

/* Refusal 12. What else holds of a table is asked of both editions. */
#define NO_EDITION_PATHS(X) \
    WORD_PATHS(X, STEP_12, "refusal 12 alone") \
    X(STEP_12_5, "refusal 12 where 5 holds too") \
    X(STEP_12_7, "refusal 12 where 7 holds too") \
    X(STEP_12_OLD, "refusal 12, an image of 640 bytes") \
    X(STEP_12_1, "refusal 12 where 1 holds too") \
    X(STEP_12_2, "refusal 12 where 2 holds by both editions") \
    X(STEP_12_CROWD, "refusal 12 where 2 holds by edition 1") \
    X(STEP_12_3, "refusal 12 where 3 holds too") \
    X(STEP_12_4, "refusal 12 where 4 holds too") \
    X(STEP_12_8, "refusal 12 where 8 holds too") \
    X(STEP_12_9, "refusal 12 where 9 holds too") \
    X(STEP_12_ALL, "refusal 12 where 5, 7 and 1 hold too") \
    X(STEP_10_12, "refusal 10 where 12 holds too, and nothing else") \
    X(STEP_10_12_MORE, "refusal 10 where 12 and more hold too") \
    BY_EDITION(X, STEP_R10, "refusal 10") \
    BY_EDITION(X, START_OK, "start") \
    BY_EDITION(X, START_6, "refusal 6 of a start") \
    BY_EDITION(X, START_6_7, "refusal 6 of a start where 7 holds too") \
    BY_EDITION(X, START_7, "refusal 7 of a start") \
    WORD_PATHS(X, START_12, "refusal 12 of a start alone") \
    X(START_12_6, "refusal 12 of a start where 6 holds too") \
    X(START_12_7, "refusal 12 of a start where 7 holds too") \
    X(START_12_OLD, "refusal 12 of a start, 640 bytes") \
    X(START_12_6_7, "refusal 12 of a start where 6 and 7 hold too")

/* Conversions; the ways are in the order of WAY_PATHS. */
#define EDITION_WAY_PATHS(X) \
    WAY_PATHS(X, MADE_1, "edition 1: convert ") \
    WAY_PATHS(X, MADE_2, "edition 2: convert ") \
    WAY_PATHS(X, BROKEN_1, "edition 1: convert: 2, ") \
    WAY_PATHS(X, BROKEN_2, "edition 2: convert: 2, ") \
    WAY_PATHS(X, MADE_CROWD, "convert, several of one event, ") \
    WAY_PATHS(X, BROKEN_CROWD, "edition 1: convert: 2, 2 takes it, ") \
    BY_EDITION(X, CONVERT_R7, "convert: 7") \
    BY_EDITION(X, CONVERT_R11, "convert: 11") \
    X(CONVERT_11_CROWD, "convert: 11, several of one event") \
    X(CONVERT_2_CROWD, "edition 1: convert: 2, 11 by edition 2") \
    WORD_PATHS(X, CONVERT_12, "convert: 12 alone") \
    X(CONVERT_12_7, "convert: 12 where 7 holds too") \
    X(CONVERT_12_2, "convert: 12 where 2 holds by both editions") \
    X(CONVERT_12_CROWD, "convert: 12 where 2 holds by edition 1") \
    X(CONVERT_12_11, "convert: 12 where 11 holds too")

#define EVENT_PATHS(X) \
    AWAIT_PATHS(X) \
    WOKEN_PATHS(X) \
    STEP_PATHS(X) \
    WAITER_PATHS(X) \
    NO_EDITION_PATHS(X) \
    EDITION_WAY_PATHS(X)

#ifdef COVER
#include "kernel.h"

/* That of the image in hand; 1 for a word that is none, which is told. */
extern uint32_t cover_edition;
extern bool cover_is_edition;

void cover_event_forget(void);
void cover_await(const struct table *k, int32_t event);
void cover_happens(const struct table *k, const struct request *q);
void cover_event_shown(uint32_t tid, struct result result);
void cover_happened(uint32_t next);
void cover_given(uint32_t edition, uint64_t answer, uint64_t record,
                 const uint8_t *image, uint64_t image_length, uint64_t areas);
void cover_no_edition(uint32_t edition, const uint8_t *record,
                      uint64_t record_length, const uint8_t *image,
                      uint64_t image_length, uint64_t areas);
void cover_event_bad(const uint8_t *image, struct request q);
void cover_event_taken(const struct table *k);
void cover_event_left(const struct table *k, struct request q,
                      uint32_t verdict);
void cover_stepped(uint32_t edition, uint32_t verdict);
void cover_started_by(uint32_t edition, uint32_t priority, uint64_t length);
void cover_converting(uint32_t edition);
void cover_converted_by(uint32_t edition, const uint8_t *image,
                        uint64_t image_length, uint64_t out_length,
                        uint32_t refusal);

#define MARK_AWAIT(k, event) cover_await(k, event)
#define MARK_HAPPENS(k, q) cover_happens(k, q)
#define MARK_EVENT_SHOWN(tid, result) cover_event_shown(tid, result)
#define MARK_HAPPENED(next) cover_happened(next)
#define MARK_GIVEN(edition, answer, record, image, image_length, areas) \
    cover_given(edition, answer, record, image, image_length, areas)
#define MARK_NO_EDITION(edition, record, length, image, image_length, areas) \
    cover_no_edition(edition, record, length, image, image_length, areas)
#define MARK_EVENT_BAD(image, q) cover_event_bad(image, q)
#define MARK_EVENT_LEFT(k, q, verdict) cover_event_left(k, q, verdict)
#define MARK_STEPPED(edition, verdict) cover_stepped(edition, verdict)
#define MARK_CONVERTING(edition) cover_converting(edition)
#define MARK_CONVERTED_BY(edition, image, image_length, out_length, refusal) \
    cover_converted_by(edition, image, image_length, out_length, refusal)
#else
#define MARK_AWAIT(k, event) ((void)0)
#define MARK_HAPPENS(k, q) ((void)0)
#define MARK_EVENT_SHOWN(tid, result) ((void)0)
#define MARK_HAPPENED(next) ((void)0)
#define MARK_GIVEN(edition, answer, record, image, image_length, areas) \
    ((void)0)
#define MARK_NO_EDITION(edition, record, length, image, image_length, areas) \
    ((void)0)
#define MARK_EVENT_BAD(image, q) ((void)0)
#define MARK_EVENT_LEFT(k, q, verdict) ((void)0)
#define MARK_STEPPED(edition, verdict) ((void)0)
#define MARK_CONVERTING(edition) ((void)0)
#define MARK_CONVERTED_BY(edition, image, image_length, out_length, refusal) \
    ((void)0)
#endif

#endif
