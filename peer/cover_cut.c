/* Counts what is about copies that were cut. */
#include "cover.h"

#include <string.h>

enum { TOLD = LATER_WAITING - CUT_WAITING, OLD_ANSWER = 20 };

enum known { NOT_KNOWN, WHOLE, CUT };

/* What no table tells of a task. */
static struct {
    enum known sent, heard; /* its last message; the last that it received */
    uint32_t receiver;      /* of its last message */
    bool told;              /* its result is that of a copy ... */
    enum cover_path who;    /* ... of which it was this end ... */
    unsigned long entry;    /* ... in this entry */
    bool was_cut;           /* the last value it was shown */
} past[TASKS + 1];

static unsigned long entry;

void cover_cut_forget(void)
{
    memset(past, 0, sizeof past);
}

void cover_lengths(enum cover_path first, struct buffer source,
                   struct buffer room)
{
    uint32_t sent = source.length, most = room.length;
    MARK_IF(most + 1 == sent, first);
    MARK_IF(most == sent && sent > 0, first + 1);
    MARK_IF(most == sent + 1, first + 2);
    MARK_IF(most == 0 && sent > 0, first + 3);
    MARK_IF(most == 0 && sent == 0, first + 4);
    MARK_IF(most > 0 && sent == 0, first + 5);
    MARK_IF(most == AREA && sent == AREA, first + 6);
    MARK_IF(most == AREA - 1 && sent == AREA, first + 7);
    MARK_IF(most == 0 && sent == AREA, first + 8);
}

static void tell(uint32_t tid, enum cover_path who)
{
    past[tid].told = true;
    past[tid].who = who;
    past[tid].entry = entry;
}

void cover_message(enum cover_path told, uint32_t receiver, uint32_t sender,
                   bool cut)
{
    tell(receiver, told);
    past[sender].receiver = receiver;
    past[sender].sent = past[receiver].heard = cut ? CUT : WHOLE;
}

void cover_reply_cut(uint32_t replier, uint32_t sender, bool cut)
{
    MARK_IF(past[sender].sent == WHOLE,
            cut ? REPLY_CUT_WHOLE : REPLY_WHOLE_WHOLE);
    MARK_IF(past[sender].sent == CUT, cut ? REPLY_CUT_CUT : REPLY_WHOLE_CUT);
    MARK_IF(cut && past[replier].heard == WHOLE, REPLY_CUT_HEARD);
    MARK_IF(!cut && past[replier].heard == CUT, REPLY_WHOLE_HEARD);
    MARK_IF(cut && past[sender].receiver != 0 &&
            past[sender].receiver != replier, REPLY_CUT_OTHER);
    tell(sender, CUT_SENDER);
    tell(replier, CUT_REPLIER);
}

/* The end of an entry that shows something. */
void cover_cut_shown(uint32_t tid, struct result result)
{
    bool told = past[tid].told, value = result.kind == RESULT_VALUE;
    if (result.cut)
        MARK(!told ? IMAGE_CUT_SHOWN : past[tid].entry == entry
             ? past[tid].who : past[tid].who + TOLD);
    if (past[tid].was_cut && !result.cut)
        MARK(!value ? (result.kind == RESULT_FAULT ? AFTER_FAULT
                                                   : AFTER_NOTHING)
             : told ? past[tid].who + 3 * TOLD : AFTER_VALUE);
    past[tid].was_cut = result.cut;
    past[tid].told = false;
    entry++;
}

/* An image that broke no rule. */
void cover_cut_taken(const struct table *k)
{
    uint32_t cut = 0, whole = 0;
    for (uint32_t tid = 1; tid <= k->used; tid++) {
        struct result r = k->task[tid].result;
        whole += r.kind == RESULT_VALUE && !r.cut;
        cut += r.cut;
        if (!r.cut)
            continue;
        MARK(r.from == 0 ? IMAGE_CUT : IMAGE_CUT_FROM);
        MARK_IF(r.number == 0, r.from == 0 ? IMAGE_CUT_ZERO
                                           : IMAGE_CUT_ZERO_FROM);
        MARK_IF(r.number == INT32_MAX, IMAGE_CUT_MOST);
    }
    MARK_IF(cut > 1, IMAGE_CUT_SEVERAL);
    MARK_IF(cut > 0 && whole > 0, IMAGE_CUT_MIXED);
}

/* What a step through an image leaves to be stored. */
void cover_cut_left(const struct table *k, uint32_t verdict)
{
    for (uint32_t tid = 1; tid <= k->used; tid++)
        if (k->task[tid].result.cut)
            MARK(verdict != 0 ? IMAGE_CUT_REFUSED : !past[tid].told
                 ? IMAGE_CUT_KEPT : past[tid].who + 2 * TOLD);
}

enum cover_rule cover_cut_rule(uint8_t cut, uint32_t kind)
{
    if (kind == RESULT_VALUE)
        return cut % 2 ? RULE_CUT_ODD : RULE_CUT_EVEN;
    if (kind == RESULT_FAULT)
        return cut > 1 ? RULE_CUT_FAULT_PAST : RULE_CUT_FAULT;
    return cut > 1 ? RULE_CUT_EMPTY_PAST : RULE_CUT_EMPTY;
}

/* An image refused by 2 for its byte 15, and what else would have refused the
 * step; the rest of the image may be broken too. */
void cover_cut_bad(const uint8_t *image, struct request q)
{
    bool active = false;
    if (!COVER_CUT)
        return;
    for (uint32_t i = 0; i < IMAGE_BYTES; i += SLOT_BYTES)
        active = active || image[i] == STATE_ACTIVE;
    if (q.kind < KIND_CREATE || q.kind > KIND_OWN_WRITE)
        MARK(CUT_BAD_3);
    else if (!active && q.kind != KIND_EVENT)
        MARK(CUT_BAD_4);
    else if (q.kind == KIND_EVENT && (q.arg[0] < 0 || q.arg[0] >= EVENTS))
        MARK(CUT_BAD_8);
    else if (q.kind == KIND_OWN_WRITE &&
             ((q.arg[0] | q.arg[1]) & ~0xFF) != 0)
        MARK(CUT_BAD_9);
}

/* The length of an answer, before anything is known of the rest. */
void cover_answer(uint64_t answer, uint64_t record, const uint8_t *image,
                  uint64_t image_length, uint64_t areas)
{
    static struct table k;
    bool broken;
    if (answer == ANSWER_BYTES)
        return;
    broken = image_length == IMAGE_BYTES &&
             !table_read(&k, cover_edition, image);
    MARK_IF(image_length != IMAGE_BYTES, ORDER_10_7);
    MARK_IF(image_length == OLD_IMAGE_BYTES, IMAGE_OLD_10);
    MARK_IF(areas != AREAS_BYTES, ORDER_10_1);
    MARK_IF(broken, ORDER_10_2);
    if (broken || !cover_is_edition || record != RECORD_BYTES ||
        image_length != IMAGE_BYTES || areas != AREAS_BYTES) {
        MARK_IF(answer == OLD_ANSWER, ANSWER_OLD_MORE);
        return;
    }
    MARK_IF(answer == 0, ANSWER_NONE);
    MARK_IF(answer == OLD_ANSWER, ANSWER_OLD);
    MARK_IF(answer == ANSWER_BYTES - 1, ANSWER_SHORT);
    MARK_IF(answer == ANSWER_BYTES + 1, ANSWER_LONG);
    MARK_IF(answer == ANSWER_BYTES + 4, ANSWER_WORD);
    MARK_IF(answer % 256 == ANSWER_BYTES, ANSWER_BYTE);
}
