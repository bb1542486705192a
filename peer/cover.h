/* What the comparison must have reached, and the marks that count it. Only a
 * build with -DCOVER counts; in every other build the marks vanish. Each mark
 * in kernel.c, image.c, convert.c, clock.c and main.c is a line of its own with
 * MARK in it, so that without these lines the programs are what their authors
 * wrote. */
#ifndef PEER_COVER_H
#define PEER_COVER_H

#include "cover_event.h"
#include "cover_paths.h"

#define COVER_PATHS(X) \
    X(REFUSAL_1, "refusal 1") \
    X(REFUSAL_2, "refusal 2") \
    X(REFUSAL_3, "refusal 3") \
    X(REFUSAL_4, "refusal 4") \
    X(REFUSAL_5, "refusal 5") \
    X(REFUSAL_7, "refusal 7") \
    X(REFUSAL_8, "refusal 8") \
    X(REFUSAL_9, "refusal 9") \
    X(REFUSAL_10, "refusal 10") \
    X(ORDER_10_5, "refusal 10 where 5 holds too") \
    X(ORDER_5_7, "refusal 5 where 7 holds too") \
    X(ORDER_7_1, "refusal 7 where 1 holds too") \
    X(ORDER_1_2, "refusal 1 where 2 holds too") \
    X(ORDER_2_3, "refusal 2 where 3 holds too") \
    X(ORDER_3_4, "refusal 3 while idle") \
    X(ORDER_4_9, "refusal 4 where 9 holds too") \
    X(IDLE_8, "refusal 8 while idle") \
    X(STEP_UNUSED, "refusal 2 of the all-unused table (self test)") \
    X(WRITE_UNUSED, "the all-unused table not written (self test)") \
    X(END_R5, "run ending in an incomplete record") \
    X(CASE_CUT, "cases ending in a case cut short") \
    X(CASE_LONG, "cases ending in too long a chunk") \
    X(START_CUT, "starts ending in a record cut short") \
    X(START_LONG, "starts ending in too long an image") \
    X(CREATE_OK, "Create") \
    X(CREATE_LAST, "Create of the 32nd task") \
    X(CREATE_PRIORITY, "Create -1") \
    X(CREATE_PRIORITY_FULL, "Create -1 on a full table") \
    X(CREATE_FULL, "Create -2") \
    X(TID, "MyTid") \
    X(PARENT_FIRST, "MyParentTid of tid 1") \
    X(PARENT_LIVE, "MyParentTid of another") \
    X(PARENT_EXITED, "MyParentTid, parent exited") \
    X(YIELD_ALONE, "Yield without company") \
    X(YIELD_COMPANY, "Yield with company") \
    X(EXIT_TO_TASK, "Exit to another task") \
    X(EXIT_TO_IDLE, "Exit to idle") \
    X(SEND_RANGE, "Send -1, tid outside the slots") \
    X(SEND_UNUSED, "Send -1, tid unused") \
    X(SEND_EXITED, "Send -1, tid exited") \
    X(SEND_GONE_MESSAGE, "Send -1, message buffer bad too") \
    X(SEND_GONE_REPLY, "Send -1, reply buffer bad too") \
    X(SEND_SELF, "Send -2") \
    X(SEND_SELF_MESSAGE, "Send -2, message buffer bad too") \
    X(SEND_SELF_REPLY, "Send -2, reply buffer bad too") \
    X(SEND_MESSAGE, "Send -3, message buffer alone") \
    X(SEND_REPLY, "Send -3, reply buffer alone") \
    X(SEND_WAITING, "Send to a waiting receiver") \
    X(SEND_CUT, "Send, delivery cut") \
    X(SEND_ZERO, "Send, delivery of no bytes") \
    X(SEND_QUEUED, "Send queued, first") \
    X(SEND_BEHIND, "Send queued behind others") \
    X(RECEIVE_BUFFER, "Receive -3") \
    X(RECEIVE_QUEUE, "Receive from the queue") \
    X(RECEIVE_CUT, "Receive, delivery cut") \
    X(RECEIVE_ZERO, "Receive, delivery of no bytes") \
    X(RECEIVE_WAITS, "Receive waiting") \
    X(REPLY_RANGE, "Reply -1, tid outside the slots") \
    X(REPLY_UNUSED, "Reply -1, tid unused") \
    X(REPLY_EXITED, "Reply -1, tid exited") \
    X(REPLY_GONE_BUFFER, "Reply -1 where -3 holds too") \
    X(REPLY_STATE, "Reply -2") \
    X(REPLY_SELF, "Reply -2, tid is the caller") \
    X(REPLY_STATE_BUFFER, "Reply -2 where -3 holds too") \
    X(REPLY_BUFFER, "Reply -3") \
    X(REPLY_WHOLE, "Reply whole") \
    X(REPLY_CUT, "Reply cut") \
    X(REPLY_ZERO, "Reply, delivery of no bytes") \
    X(REPLY_EQUAL, "Reply between equal priorities") \
    X(WRITE_OWN, "Own write") \
    X(END_BUFFER, "offset 256 with length 0 taken as good") \
    X(SHOW_NOTHING, "shown: task with no result") \
    X(SHOW_VALUE, "shown: value, from 0") \
    X(SHOW_FROM, "shown: value with from") \
    X(SHOW_FAULT, "shown: fault") \
    X(SHOW_IDLE, "shown: no ready task") \
    CUT_PATHS(X) \
    DOOR_PATHS(X) \
    ENTRY_PATHS(X) \
    CONVERT_PATHS(X) \
    EVENT_PATHS(X) \
    CLOCK_PATHS(X)

/* Rules of a table; the masks say for which states of the record at fault a
 * break can be met by edition 1 and by edition 2 (bit 0 unused up to bit 7
 * exited). The two last are asked
 * last, so that they count images that break no other rule. */
#define COVER_RULES(X) \
    X(RULE_NO_TASK, 0x01, 0x01, "no used slot") \
    X(RULE_FIRST_RUN, 0xFE, 0xFE, "used slot after an unused one") \
    X(RULE_UNUSED, 0x01, 0x01, "unused record not zero") \
    X(RULE_STATE, 0x01, 0x01, "state out of range") \
    X(RULE_PRIORITY, 0xFE, 0xFE, "priority out of range") \
    X(RULE_PARENT_FIRST, 0xFE, 0xFE, "parent of tid 1 not 0") \
    X(RULE_PARENT_NONE, 0xFE, 0xFE, "parent of another is 0") \
    X(RULE_PARENT_LATE, 0xFE, 0xFE, "parent not below tid") \
    X(RULE_PLACE_UNUSED, 0xEA, 0xAA, "unused place not zero") \
    X(RULE_NAME_UNUSED, 0xAE, 0xAE, "unused byte 4 not zero") \
    X(RULE_MESSAGE_BAD, 0x18, 0x18, "message buffer bad") \
    X(RULE_MESSAGE_OFFSET, 0xE6, 0xE6, "unused message offset") \
    X(RULE_MESSAGE_LENGTH, 0xE6, 0xE6, "unused message length") \
    X(RULE_REPLY_BAD, 0x30, 0x30, "reply buffer bad") \
    X(RULE_REPLY_OFFSET, 0xCE, 0xCE, "unused reply offset") \
    X(RULE_REPLY_LENGTH, 0xCE, 0xCE, "unused reply length") \
    X(RULE_RESULT_KIND, 0xFE, 0xFE, "result kind out of range") \
    X(RULE_RESULT_HELD, 0xFA, 0xFA, "result of a task not ready") \
    X(RULE_EMPTY_FROM, 0xFE, 0xFE, "from without a result") \
    X(RULE_EMPTY_VALUE, 0xFE, 0xFE, "value without a result") \
    X(RULE_VALUE, 0x04, 0x04, "value negative") \
    X(RULE_VALUE_FROM, 0x04, 0x04, "from past the used slots") \
    X(RULE_FAULT, 0x04, 0x04, "fault out of range") \
    X(RULE_FAULT_FROM, 0x04, 0x04, "fault with a from") \
    X(RULE_CUT_EMPTY, 0xFE, 0xFE, "cut without a result") \
    X(RULE_CUT_EMPTY_PAST, 0xFE, 0xFE, "byte 15 past 1, no result") \
    X(RULE_CUT_FAULT, 0x04, 0x04, "cut with a fault") \
    X(RULE_CUT_FAULT_PAST, 0x04, 0x04, "byte 15 past 1, a fault") \
    X(RULE_CUT_ODD, 0x04, 0x04, "byte 15 odd, past 1, a value") \
    X(RULE_CUT_EVEN, 0x04, 0x04, "byte 15 even, not 0, a value") \
    X(RULE_TARGET_NONE, 0x10, 0x10, "target 0") \
    X(RULE_TARGET_UNUSED, 0x10, 0x10, "target not used") \
    X(RULE_TARGET_SELF, 0x10, 0x10, "target is itself") \
    X(RULE_EVENT, 0x40, 0x40, "event out of range") \
    X(RULE_EVENT_TWICE, 0x40, 0x00, "event with two waiters") \
    X(RULE_PLACE_RANGE, 0x14, 0x54, "place past any queue") \
    X(RULE_PLACE_TWICE, 0x14, 0x54, "two in one place") \
    X(RULE_PLACE_GAP, 0x14, 0x54, "gap before a place") \
    X(RULE_ACTIVE_TWICE, 0x02, 0x02, "two active tasks") \
    X(RULE_NONE_ACTIVE, 0x04, 0x04, "none active, one ready") \
    X(RULE_WAITING_SENDER, 0x08, 0x08, "sender queued at a waiter") \
    X(RULE_EXITED_BEFORE, 0x10, 0x10, "target exited, the lower tid") \
    X(RULE_EXITED_BEHIND, 0x10, 0x10, "target exited, the higher tid")

#ifdef COVER
#include "clock.h"
#include "kernel.h"

#define COVER_NAME(name, text) name,
enum cover_path { COVER_PATHS(COVER_NAME) PATHS };
#undef COVER_NAME
#define COVER_NAME(name, first, second, text) name,
enum cover_rule { COVER_RULES(COVER_NAME) RULES };
#undef COVER_NAME

extern unsigned long cover_paths[PATHS];
enum { EDITIONS = 2 };
extern unsigned long cover_rules[EDITIONS][RULES][8];
/* The ways of a conversion, in the order of WAY_PATHS; the rules by them. */
enum cover_way { WAY_UP, WAY_DOWN, WAY_OLD_OLD, WAY_NEW_NEW, WAYS };
extern unsigned long cover_ways[RULES][WAYS];
extern unsigned cover_rule;  /* asked last, so the broken one if one is */
extern unsigned cover_state; /* of the record that it was asked of */

void cover_load(void);   /* adds the file named by PEER_COVER, if there */
void cover_save(void);   /* writes that file */
void cover_program(int argc, char **argv); /* `cover` prints and ends */
void cover_refused(uint32_t verdict, uint32_t active,
                   const struct request *q);
bool cover_byte(uint8_t byte, bool is_state); /* true */
void cover_forget(void);
void cover_exit(const struct table *k);
void cover_exited(bool exited, uint32_t next);
void cover_shown(uint32_t tid);
void cover_sent(const struct table *k, uint32_t tid, bool taken);
void cover_received(uint32_t receiver, uint32_t sender);
void cover_replied(const struct table *k, uint32_t tid, bool taken);
void cover_targets(const struct table *k);
void cover_taken(const struct table *k);
void cover_closed(struct request q);
void cover_cut_forget(void);
void cover_lengths(enum cover_path first, struct buffer source,
                   struct buffer room);
void cover_message(enum cover_path told, uint32_t receiver, uint32_t sender,
                   bool cut);
void cover_reply_cut(uint32_t replier, uint32_t sender, bool cut);
void cover_cut_shown(uint32_t tid, struct result result);
void cover_cut_taken(const struct table *k);
void cover_cut_left(const struct table *k, uint32_t verdict);
enum cover_rule cover_cut_rule(uint8_t cut, uint32_t kind);
void cover_cut_bad(const uint8_t *image, struct request q);
void cover_answer(uint64_t answer, uint64_t record, const uint8_t *image,
                  uint64_t image_length, uint64_t areas);
void cover_entry_taken(const struct table *k);
void cover_entry_left(const struct table *k, struct request q,
                      uint32_t verdict);
bool cover_entry_only(const uint8_t *image);
void cover_entry_bad(const uint8_t *image, struct request q);
void cover_image(const uint8_t *image, uint64_t length, uint64_t areas);
void cover_wrong(enum cover_path first, uint64_t length);
void cover_started(uint32_t edition, uint32_t priority, uint32_t entry,
                   uint64_t length);
bool cover_unlike(uint32_t entry);
extern bool cover_asking; /* of what is asked now nothing is counted */
uint32_t cover_would(const uint8_t *image, bool old);
void cover_converted(const uint8_t *image, uint64_t image_length,
                     const uint8_t *out, uint64_t out_length,
                     uint32_t refusal);
void cover_no_sleepers(void);
void cover_recorded(const struct clock *c, const struct clock_message *m);
void cover_heard(const struct clock *c, const struct clock_message *m,
                 int32_t status);
void cover_sleeps(const struct clock *c, const struct clock_message *m,
                  uint32_t due);
void cover_ticked(const struct clock *c, const struct clock_answers *given);

/* A path was taken; some paths stand beside each other for a number added. */
#define MARK(path) ((void)cover_paths[path]++)
#define MARK_IF(test, path) ((void)((test) && cover_paths[path]++))
#define MARK_MISSING(first, tid, used) \
    MARK((first) + ((tid) - 1 >= TASKS ? 0 : (tid) > (used) ? 1 : 2))
#define MARK_DELIVERY(first, source, room) \
    (MARK((first) + ((room).length < (source).length)), \
     MARK_IF((room).length == 0 || (source).length == 0, (first) + 2), \
     cover_lengths((first) == SEND_WAITING ? LENGTH_SEND_BY_ONE \
                   : (first) == RECEIVE_QUEUE ? LENGTH_RECEIVE_BY_ONE \
                   : LENGTH_REPLY_BY_ONE, source, room))
#define MARK_REFUSED(verdict, active, q) cover_refused(verdict, active, q)
#define COVER_COMPANY(k) \
    ((k)->ready[(k)->task[(k)->active].priority].length > 0)
#define COVER_PARENT(k) \
    ((k)->task[(k)->active].parent == 0 ? PARENT_FIRST \
     : (k)->task[(k)->task[(k)->active].parent].state == STATE_EXITED \
     ? PARENT_EXITED : PARENT_LIVE)

/* Senders whose target exits. What one kernel did is followed from its start,
 * and forgotten where a table is started or read. */
#define MARK_FORGET() cover_forget()
#define MARK_EXIT(k) cover_exit(k)
#define MARK_EXITED(exited, next) cover_exited(exited, next)
#define MARK_SHOWN(tid) cover_shown(tid)
#define MARK_SENT(k, tid, taken) cover_sent(k, tid, taken)
#define MARK_RECEIVED(receiver, sender) cover_received(receiver, sender)
#define MARK_REPLIED(k, tid, taken) cover_replied(k, tid, taken)
#define MARK_TARGETS(k) cover_targets(k)
#define MARK_TAKEN(k) cover_taken(k)
#define MARK_CLOSED(q) cover_closed(q)
#define COVER_CLOSED \
    (cover_rule == RULE_EXITED_BEFORE || cover_rule == RULE_EXITED_BEHIND)

/* Copies that were cut, and who is told. */
#define MARK_MESSAGE(told, receiver, sender, cut) \
    cover_message(told, receiver, sender, cut)
#define MARK_REPLY_CUT(replier, sender, cut) \
    cover_reply_cut(replier, sender, cut)
#define MARK_CUT_SHOWN(tid, result) cover_cut_shown(tid, result)
#define MARK_CUT_LEFT(k, verdict) cover_cut_left(k, verdict)
#define MARK_CUT_BAD(image, q) cover_cut_bad(image, q)
#define MARK_ASK_CUT(cut, kind) MARK_ASK(cover_cut_rule(cut, kind))
#define COVER_CUT \
    (cover_rule >= RULE_CUT_EMPTY && cover_rule <= RULE_CUT_EVEN)
#define MARK_ANSWER(answer, record, image, image_length, areas) \
    cover_answer(answer, record, image, image_length, areas)

/* Entries: of an image before a step and after it, of a slot that is no task's,
 * of a start; the lengths of images; conversions. */
#define MARK_ENTRY_LEFT(k, q, verdict) cover_entry_left(k, q, verdict)
#define MARK_ENTRY_BAD(image, q) cover_entry_bad(image, q)
#define MARK_IMAGE(image, length, areas) cover_image(image, length, areas)
#define MARK_STARTED(edition, priority, entry, length) \
    cover_started(edition, priority, entry, length)
#define MARK_CONVERTED(image, image_length, out, out_length, refusal) \
    cover_converted(image, image_length, out, out_length, refusal)

/* A rule is asked of a record; MARK_RULE counts the one asked last. */
#define MARK_RECORD(state) ((void)(cover_state = (state)))
#define MARK_ASK(rule) ((void)(cover_rule = (rule)))
#define MARK_ASK_IF(test, rule) ((void)((test) && (cover_rule = (rule))))
#define MARK_ASK_MORE(n) ((void)(cover_rule += (n)))
#define MARK_AND_ASK(rule) && (cover_rule = (rule), true)
#define MARK_EACH_BYTE(byte, is_state) if (cover_byte(byte, is_state))
#define MARK_RULE() \
    ((void)cover_rules[cover_edition - EDITION_SOLE][cover_rule][cover_state]++)
#define COVER_PLACE /* the rule asked last is one about places of waiters */ \
    (cover_state == STATE_EVENT_BLOCKED && \
     (cover_rule == RULE_PLACE_UNUSED || \
      (cover_rule >= RULE_EVENT_TWICE && cover_rule <= RULE_PLACE_GAP)))

/* The clock: a record read; a message heard and how it was judged; a sender
 * about to sleep; a tick and its answers. */
#define MARK_NO_SLEEPERS() cover_no_sleepers()
#define MARK_RECORDED(c, m) cover_recorded(c, m)
#define MARK_HEARD(c, m, status) cover_heard(c, m, status)
#define MARK_SLEEPS(c, m, due) cover_sleeps(c, m, due)
#define MARK_TICKED(c, given) cover_ticked(c, given)

#define MARK_PROGRAM(argc, argv) cover_program(argc, argv)
#else
#define MARK(path) ((void)0)
#define MARK_IF(test, path) ((void)0)
#define MARK_MISSING(first, tid, used) ((void)0)
#define MARK_DELIVERY(first, source, room) ((void)0)
#define MARK_REFUSED(verdict, active, q) ((void)0)
#define MARK_FORGET() ((void)0)
#define MARK_EXIT(k) ((void)0)
#define MARK_EXITED(exited, next) ((void)0)
#define MARK_SHOWN(tid) ((void)0)
#define MARK_SENT(k, tid, taken) ((void)0)
#define MARK_RECEIVED(receiver, sender) ((void)0)
#define MARK_REPLIED(k, tid, taken) ((void)0)
#define MARK_TARGETS(k) ((void)0)
#define MARK_TAKEN(k) ((void)0)
#define MARK_CLOSED(q) ((void)0)
#define MARK_ENTRY_LEFT(k, q, verdict) ((void)0)
#define MARK_ENTRY_BAD(image, q) ((void)0)
#define MARK_IMAGE(image, length, areas) ((void)0)
#define MARK_STARTED(edition, priority, entry, length) ((void)0)
#define MARK_CONVERTED(image, image_length, out, out_length, refusal) ((void)0)
#define MARK_MESSAGE(told, receiver, sender, cut) ((void)0)
#define MARK_REPLY_CUT(replier, sender, cut) ((void)0)
#define MARK_CUT_SHOWN(tid, result) ((void)0)
#define MARK_CUT_LEFT(k, verdict) ((void)0)
#define MARK_CUT_BAD(image, q) ((void)0)
#define MARK_ASK_CUT(cut, kind) ((void)0)
#define MARK_ANSWER(answer, record, image, image_length, areas) ((void)0)
#define MARK_RECORD(state) ((void)0)
#define MARK_ASK(rule) ((void)0)
#define MARK_ASK_IF(test, rule) ((void)0)
#define MARK_ASK_MORE(n) ((void)0)
#define MARK_AND_ASK(rule)
#define MARK_EACH_BYTE(byte, is_state)
#define MARK_RULE() ((void)0)
#define MARK_NO_SLEEPERS() ((void)0)
#define MARK_RECORDED(c, m) ((void)0)
#define MARK_HEARD(c, m, status) ((void)0)
#define MARK_SLEEPS(c, m, due) ((void)0)
#define MARK_TICKED(c, given) ((void)0)
#define MARK_PROGRAM(argc, argv) ((void)0)
#endif

#endif
