/* The paths that belong to one request each: the clock's, P2's, P8's, P9's. */
#ifndef PEER_COVER_PATHS_H
#define PEER_COVER_PATHS_H

/* Where two reasons hold the text has the one that is answered first. What is
 * said of places is true of a clock that takes the lowest free one. */
#define CLOCK_PATHS(X) \
    X(CLOCK_BEFORE, "clock: message before the first new clock") \
    X(CLOCK_NEW, "clock: new clock") \
    X(CLOCK_NEW_ASLEEP, "clock: new clock after one with sleepers") \
    X(CLOCK_CUT, "clock: input ending in an incomplete record") \
    X(CLOCK_FAR_TID, "clock: message from a tid past 32") \
    X(CLOCK_EMPTY, "clock: -4, length 0") \
    X(CLOCK_SHORT, "clock: -4, length 1 to 7") \
    X(CLOCK_LONG, "clock: -4, length past 8") \
    X(CLOCK_LENGTH_TICK, "clock: -4, length alone, tick of the notifier") \
    X(CLOCK_LENGTH_TIME, "clock: -4, length alone, Time") \
    X(CLOCK_LENGTH_ONCE, "clock: -4, length alone, delay due at once") \
    X(CLOCK_LENGTH_SLEEP, "clock: -4, length alone, delay that would sleep") \
    X(CLOCK_LENGTH_2, "clock: -4 by length where -2 holds too") \
    X(CLOCK_LENGTH_3, "clock: -4 by length where -3 holds too") \
    X(CLOCK_OP_NONE, "clock: -4, op 0") \
    X(CLOCK_OP_PAST, "clock: -4, op past 4") \
    X(CLOCK_TICK_ARGUMENT, "clock: -4, tick of the notifier, argument") \
    X(CLOCK_TIME_ARGUMENT, "clock: -4, Time, argument") \
    X(CLOCK_TICK_OTHER, "clock: -4, tick from another tid") \
    X(CLOCK_TICK_SLEEPER, "clock: -4, tick from another tid that sleeps") \
    X(CLOCK_TICK_NOBODY, "clock: -4, tick where the notifier is tid 0") \
    X(CLOCK_ASLEEP_DELAY, "clock: -4, Delay from one asleep") \
    X(CLOCK_ASLEEP_ZERO, "clock: -4, Delay of 0 from one asleep") \
    X(CLOCK_ASLEEP_UNTIL, "clock: -4, DelayUntil from one asleep") \
    X(CLOCK_ASLEEP_DUE, "clock: -4, DelayUntil from one asleep, due") \
    X(CLOCK_ASLEEP_2, "clock: -4, asleep, where -2 holds too") \
    X(CLOCK_ASLEEP_3, "clock: -4, asleep, where -3 holds too") \
    X(CLOCK_ASLEEP_2_FULL, "clock: -4, asleep, where -2 holds too, full") \
    X(CLOCK_NEGATIVE, "clock: -2") \
    X(CLOCK_NEGATIVE_ONE, "clock: -2, Delay of -1") \
    X(CLOCK_NEGATIVE_MOST, "clock: -2, Delay of -2^31") \
    X(CLOCK_NEGATIVE_FULL, "clock: -2 where all places are taken") \
    X(CLOCK_FULL_DELAY, "clock: -3, Delay") \
    X(CLOCK_FULL_UNTIL, "clock: -3, DelayUntil") \
    X(CLOCK_TIME, "clock: Time") \
    X(CLOCK_TIME_ASLEEP, "clock: Time from one asleep") \
    X(CLOCK_TIME_FULL, "clock: Time where all places are taken") \
    X(CLOCK_ZERO, "clock: at once, Delay of 0") \
    X(CLOCK_ZERO_FULL, "clock: at once, Delay of 0, full") \
    X(CLOCK_DUE_NOW, "clock: at once, DelayUntil the count") \
    X(CLOCK_DUE_ONE, "clock: at once, DelayUntil one behind") \
    X(CLOCK_DUE_MOST, "clock: at once, DelayUntil 2^31 - 1 behind") \
    X(CLOCK_DUE_WRAPPED, "clock: at once, DelayUntil behind the wrap") \
    X(CLOCK_DUE_FULL, "clock: at once, DelayUntil due, full") \
    X(CLOCK_DELAY_SLEEPS, "clock: asleep by Delay") \
    X(CLOCK_DELAY_ONE, "clock: asleep by Delay of 1") \
    X(CLOCK_DELAY_MOST, "clock: asleep by Delay of 2^31 - 1") \
    X(CLOCK_DELAY_WRAPS, "clock: asleep by Delay across the wrap") \
    X(CLOCK_DELAY_TO_WRAP, "clock: asleep by Delay to count 0") \
    X(CLOCK_UNTIL_SLEEPS, "clock: asleep by DelayUntil") \
    X(CLOCK_UNTIL_ONE, "clock: asleep by DelayUntil one ahead") \
    X(CLOCK_UNTIL_NEAR, "clock: asleep by DelayUntil 2^31 - 1 ahead") \
    X(CLOCK_UNTIL_MOST, "clock: asleep by DelayUntil 2^31 ahead") \
    X(CLOCK_UNTIL_WRAPS, "clock: asleep by DelayUntil across the wrap") \
    X(CLOCK_UNTIL_TO_WRAP, "clock: asleep by DelayUntil count 0") \
    X(CLOCK_LAST_PLACE, "clock: asleep in the last place") \
    X(CLOCK_AGAIN, "clock: asleep in a place used before") \
    X(CLOCK_AGAIN_LAST, "clock: the last free place, used before") \
    X(CLOCK_NOTIFIER_SLEEPS, "clock: the notifier asleep") \
    X(CLOCK_TICK_ALONE, "clock: tick where nobody sleeps") \
    X(CLOCK_TICK_PASSES, "clock: tick where none of the sleepers is due") \
    X(CLOCK_WAKES_ONE, "clock: tick that wakes one") \
    X(CLOCK_WAKES_SEVERAL, "clock: tick that wakes several") \
    X(CLOCK_WAKES_ALL, "clock: tick that wakes all 16") \
    X(CLOCK_WAKES_SOME, "clock: tick that wakes some and leaves some") \
    X(CLOCK_WAKES_TIDS, "clock: arrival is not the order of tids") \
    X(CLOCK_WAKES_PLACES, "clock: arrival is not the order of places") \
    X(CLOCK_WAKES_SORTS, "clock: both sorts of delay due at one tick") \
    X(CLOCK_WAKES_NOTIFIER, "clock: the notifier woken by its own tick") \
    X(CLOCK_WRAPS, "clock: tick to count 0") \
    X(CLOCK_WRAPS_PASSES, "clock: tick to count 0, sleepers, none due") \
    X(CLOCK_WRAPS_WAKES, "clock: tick to count 0 that wakes") \
    X(CLOCK_WAKES_AFTER, "clock: woken past a wrap since it slept") \
    X(CLOCK_HALF, "clock: tick to count 2^31")

/* What request P2 asks of an Exit, and of the target of a queued sender. A
 * sender is let go where its target exits. What needs several steps of one
 * kernel, from DOOR_RECEIVED to DOOR_STAYED_REPLY, only a run can meet; what
 * is said of images, only cases. */
#define DOOR_PATHS(X) \
    X(DOOR_ONE, "Exit that lets one sender go") \
    X(DOOR_SEVERAL, "Exit that lets several senders go") \
    X(DOOR_CROWD, "Exit that lets all 31 others go") \
    X(DOOR_TO_HEAD, "Exit, the first of its senders goes on") \
    X(DOOR_TO_LATER, "Exit, a later one of its senders goes on") \
    X(DOOR_TO_OTHER, "Exit with senders, one ready before goes on") \
    X(DOOR_REPLY, "Exit with senders, one reply-blocked stays") \
    X(DOOR_ELSEWHERE, "Exit with senders, those of another stay") \
    X(DOOR_ABOVE, "let go: of a better priority than who exits") \
    X(DOOR_EQUAL, "let go: of the same priority") \
    X(DOOR_BELOW, "let go: of a worse priority") \
    X(DOOR_FIRST_READY, "let go: the first ready at its priority") \
    X(DOOR_TAIL, "let go: behind one ready before") \
    X(DOOR_TIDS, "let go: two of a priority, the higher tid first") \
    X(DOOR_PRIORITIES, "let go: the better priority last") \
    X(DOOR_CHAIN, "let go: one with senders of its own") \
    X(DOOR_RECEIVED, "Exit with senders, another received before") \
    X(DOOR_AGAIN, "Exit with senders of one let go before") \
    X(DOOR_TWICE, "let go: for the second time") \
    X(DOOR_SHOWN_LATER, "shown: -2 of one let go, at a later step") \
    X(DOOR_SEND, "Send -1 to the task that let the caller go") \
    X(DOOR_SEND_OTHER, "Send from one let go, taken") \
    X(DOOR_LET_GO_REPLY, "Reply -2, tid was let go and is ready") \
    X(DOOR_STAYED_REPLY, "Reply to a task whose receiver exited") \
    X(TARGET_ACTIVE, "image taken: sender at the active task") \
    X(TARGET_READY, "image taken: sender at a ready task") \
    X(TARGET_SENDER, "image taken: sender at a receive-blocked task") \
    X(TARGET_REPLY, "image taken: sender at a reply-blocked task") \
    X(TARGET_EVENT, "image taken: sender at an event-blocked task") \
    X(EXITED_ALONE, "image taken: exited task, senders elsewhere") \
    X(CLOSED_ONE, "refusal 2, target exited, of one sender") \
    X(CLOSED_SEVERAL, "refusal 2, target exited, of several senders") \
    X(CLOSED_IDLE, "refusal 2, target exited, none active") \
    X(CLOSED_1, "refusal 1 where a target exited") \
    X(CLOSED_3, "refusal 2, target exited, where 3 holds too") \
    X(CLOSED_4, "refusal 2, target exited, where 4 holds too") \
    X(CLOSED_8, "refusal 2, target exited, where 8 holds too") \
    X(CLOSED_9, "refusal 2, target exited, where 9 holds too")

/* What request P8 asks: whether a copy was cut, who is told of it, byte 15 of
 * a record and the length of an answer. Cut: the room was shorter than what was
 * sent. What a task met before only a run can tell; what is said of images and
 * answers, only cases. */
#define LENGTH_PATHS(X, name, text) \
    X(name##_BY_ONE, text ", cut by one byte") \
    X(name##_FITS, text ", room of just its length") \
    X(name##_SPARE, text ", room one byte longer") \
    X(name##_NO_ROOM, text ", cut to nothing") \
    X(name##_EMPTY, text " of nothing into no room") \
    X(name##_ROOM, text " of nothing into some room") \
    X(name##_MOST, text " of 256 bytes, whole") \
    X(name##_MOST_LESS, text " of 256 bytes, cut by one") \
    X(name##_MOST_CUT, text " of 256 bytes, cut to nothing")

/* The four who can be told, always in this order. */
#define TOLD_PATHS(X, name, text) \
    X(name##WAITING, text "receiver that waited") \
    X(name##QUEUE, text "receiver, from its queue") \
    X(name##SENDER, text "sender, of the reply") \
    X(name##REPLIER, text "replier")

#define CUT_PATHS(X) \
    LENGTH_PATHS(X, LENGTH_SEND, "Send to one waiting") \
    LENGTH_PATHS(X, LENGTH_RECEIVE, "Receive") \
    LENGTH_PATHS(X, LENGTH_REPLY, "Reply") \
    TOLD_PATHS(X, CUT_, "cut shown at once: ") \
    TOLD_PATHS(X, LATER_, "cut shown at a later step: ") \
    TOLD_PATHS(X, LEFT_, "cut left in an image: ") \
    TOLD_PATHS(X, WHOLE_, "whole shown, after a cut one: ") \
    X(AFTER_VALUE, "value of no copy shown, after a cut one") \
    X(AFTER_FAULT, "fault shown, after a cut value") \
    X(AFTER_NOTHING, "nothing shown, after a cut value") \
    X(REPLY_WHOLE_WHOLE, "Reply whole, the message came whole") \
    X(REPLY_CUT_WHOLE, "Reply cut, the message came whole") \
    X(REPLY_WHOLE_CUT, "Reply whole, the message was cut") \
    X(REPLY_CUT_CUT, "Reply cut, the message was cut") \
    X(REPLY_CUT_HEARD, "Reply cut, its own last message came whole") \
    X(REPLY_WHOLE_HEARD, "Reply whole, its own last message was cut") \
    X(REPLY_CUT_OTHER, "Reply cut, by one that did not receive") \
    X(IMAGE_CUT, "image taken: cut value, from 0") \
    X(IMAGE_CUT_FROM, "image taken: cut value with from") \
    X(IMAGE_CUT_ZERO, "image taken: cut value 0, from 0") \
    X(IMAGE_CUT_ZERO_FROM, "image taken: cut value 0 with from") \
    X(IMAGE_CUT_MOST, "image taken: cut value 2^31 - 1") \
    X(IMAGE_CUT_SEVERAL, "image taken: several cut values") \
    X(IMAGE_CUT_MIXED, "image taken: cut values and whole ones") \
    X(IMAGE_CUT_SHOWN, "cut value of an image shown") \
    X(IMAGE_CUT_KEPT, "cut value of an image kept in it") \
    X(IMAGE_CUT_REFUSED, "image with a cut value, step refused") \
    X(CUT_BAD_1, "refusal 1 where byte 15 is wrong") \
    X(CUT_BAD_3, "refusal 2, byte 15, where 3 holds too") \
    X(CUT_BAD_4, "refusal 2, byte 15, where 4 holds too") \
    X(CUT_BAD_8, "refusal 2, byte 15, where 8 holds too") \
    X(CUT_BAD_9, "refusal 2, byte 15, where 9 holds too") \
    X(ANSWER_NONE, "refusal 10 alone, 0 bytes") \
    X(ANSWER_OLD, "refusal 10 alone, 20 bytes") \
    X(ANSWER_SHORT, "refusal 10 alone, 23 bytes") \
    X(ANSWER_LONG, "refusal 10 alone, 25 bytes") \
    X(ANSWER_WORD, "refusal 10 alone, 28 bytes") \
    X(ANSWER_BYTE, "refusal 10 alone, 24 in the low byte") \
    X(ANSWER_OLD_MORE, "refusal 10, 20 bytes, where another holds too") \
    X(ORDER_10_7, "refusal 10 where 7 holds too") \
    X(ORDER_10_1, "refusal 10 where 1 holds too") \
    X(ORDER_10_2, "refusal 10 where 2 holds too")

/* What request P9 asks: the entry number of each task, the longer image, the
 * start with an entry, and conversions. An entry shows in no line of a run, so
 * all but the starts and the conversions is counted in cases alone; "image"
 * without more is one that was taken. */
#define STATE_PATHS(X, name, text) \
    X(name##_ACTIVE, text "active") \
    X(name##_READY, text "ready") \
    X(name##_SEND, text "send-blocked") \
    X(name##_RECEIVE, text "receive-blocked") \
    X(name##_REPLY, text "reply-blocked") \
    X(name##_EVENT, text "event-blocked") \
    X(name##_EXITED, text "exited")

/* Lengths that are of neither form. */
#define WRONG_PATHS(X, name, text) \
    X(name##_0, text "0 bytes") \
    X(name##_639, text "639 bytes") \
    X(name##_641, text "641 bytes") \
    X(name##_767, text "767 bytes") \
    X(name##_769, text "769 bytes")

#define ENTRY_PATHS(X) \
    X(ENTRY_ZERO, "image, Create with entry 0") \
    X(ENTRY_ONE, "image, Create with entry 1") \
    X(ENTRY_BYTE, "image, Create with entry 2 to 255") \
    X(ENTRY_FAR, "image, Create with an entry past 255") \
    X(ENTRY_NEGATIVE, "image, Create with an entry negative as a word") \
    X(ENTRY_BYTES, "image, Create with an entry of four unlike bytes") \
    X(ENTRY_LAST, "image, Create of the 32nd task with an entry") \
    X(ENTRY_OTHER, "image, Create with an entry unlike its caller's") \
    X(ENTRY_PRIORITY, "image, Create -1 with an entry") \
    X(ENTRY_FULL, "image, Create -2 with an entry") \
    STATE_PATHS(X, ENTRY_IS, "image, entry of a task that is ") \
    STATE_PATHS(X, ENTRY_TO, "image, entry of a task that became ") \
    X(ENTRY_NONE, "image without entries") \
    X(ENTRY_FIRST, "image, entry of tid 1 alone") \
    X(ENTRY_ALONE, "image, entry of one other task alone") \
    X(ENTRY_ALL, "image, entries of 32 tasks") \
    X(ENTRY_SAME, "image, two tasks of one entry") \
    X(ENTRY_RESULT, "image, entry beside a value or a fault") \
    X(ENTRY_LET_GO, "image, entry of a sender let go") \
    X(ENTRY_REFUSED, "image with entries, step refused") \
    X(UNUSED_20, "refusal 2, no task but its byte 20, all else good") \
    X(UNUSED_21, "refusal 2, no task but its byte 21, all else good") \
    X(UNUSED_22, "refusal 2, no task but its byte 22, all else good") \
    X(UNUSED_23, "refusal 2, no task but its byte 23, all else good") \
    X(UNUSED_FIRST, "refusal 2, entry alone, first slot not given out") \
    X(UNUSED_LAST, "refusal 2, entry alone, slot 32") \
    X(UNUSED_1, "refusal 1 where no task has an entry") \
    X(UNUSED_3, "refusal 2, no task has an entry, where 3 holds too") \
    X(UNUSED_4, "refusal 2, no task has an entry, where 4 holds too") \
    X(UNUSED_8, "refusal 2, no task has an entry, where 8 holds too") \
    X(UNUSED_9, "refusal 2, no task has an entry, where 9 holds too") \
    WRONG_PATHS(X, IMAGE, "refusal 7 alone, ") \
    X(IMAGE_OLD, "refusal 7 alone, 640 bytes") \
    X(IMAGE_OLD_GOOD, "refusal 7 alone, a good image of the old form") \
    X(IMAGE_OLD_1, "refusal 7, 640 bytes, where 1 holds too") \
    X(IMAGE_OLD_5, "refusal 5 where the image has 640 bytes") \
    X(IMAGE_OLD_10, "refusal 10 where the image has 640 bytes") \
    X(START_ENTRY_ZERO, "start with entry 0") \
    X(START_ENTRY, "start with an entry") \
    X(START_ENTRY_BYTES, "start with an entry of four unlike bytes") \
    X(START_ENTRY_NEGATIVE, "start with an entry negative as a word") \
    X(START_6_ENTRY, "refusal 6 of a start with an entry") \
    WRONG_PATHS(X, START_7, "refusal 7 of a start, ") \
    X(START_7_OLD, "refusal 7 of a start, 640 bytes") \
    X(START_6_OLD, "refusal 6 of a start, 640 bytes")

/* Where a conversion goes: up is from the old form to the new one, down the
 * way back, and the two others stay in their form; always in this order. */
#define WAY_PATHS(X, name, text) \
    X(name##_UP, text "up") \
    X(name##_DOWN, text "down") \
    X(name##_OLD_OLD, text "old to old") \
    X(name##_NEW_NEW, text "new to new")

#define MADE_PATHS(X, name, text) \
    X(name, text) \
    STATE_PATHS(X, name, text ", a task ") \
    X(name##_ONE, text ", one task") \
    X(name##_FULL, text ", 32 tasks") \
    X(name##_IDLE, text ", nobody active") \
    X(name##_CUT, text ", a cut value") \
    X(name##_FAULT, text ", a fault") \
    X(name##_BACK, text ", from what a conversion made, the same bytes")

/* The entries of a good new image. */
#define HAS_PATHS(X, name, text) \
    STATE_PATHS(X, name, text ", one entry, its task ") \
    X(name##_FIRST, text ", one entry, tid 1") \
    X(name##_LAST, text ", one entry, tid 32") \
    X(name##_SEVERAL, text ", several entries") \
    X(name##_ALL, text ", entries of 32 tasks") \
    X(name##_20, text ", byte 20 alone") \
    X(name##_21, text ", byte 21 alone") \
    X(name##_22, text ", byte 22 alone") \
    X(name##_23, text ", byte 23 alone")

/* Where 7 is given for the out buffer nothing says what of the image would be
 * lost, so no 11 holds beside it. */
#define CONVERT_PATHS(X) \
    MADE_PATHS(X, UP, "convert up") \
    MADE_PATHS(X, DOWN, "convert down") \
    MADE_PATHS(X, OLD_OLD, "convert old to old") \
    MADE_PATHS(X, NEW_NEW, "convert new to new") \
    X(KEPT_NONE, "convert new to new, no entry") \
    HAS_PATHS(X, KEPT, "convert new to new") \
    WRONG_PATHS(X, OLD_TO, "convert: 7, 640 bytes to ") \
    WRONG_PATHS(X, NEW_TO, "convert: 7, 768 bytes to ") \
    WRONG_PATHS(X, TO_OLD, "convert: 7, to 640 bytes from ") \
    WRONG_PATHS(X, TO_NEW, "convert: 7, to 768 bytes from ") \
    X(CONVERT_NEITHER, "convert: 7, both lengths no image's") \
    X(CONVERT_7_2_OLD, "convert: 7 where 2 holds too, an old image") \
    X(CONVERT_7_2_NEW, "convert: 7 where 2 holds too, a new image") \
    X(CONVERT_7_ENTRY, "convert: 7, a good new image with an entry") \
    WAY_PATHS(X, CONVERT_2, "convert: 2, no task has an entry, ") \
    X(CONVERT_2_11, "convert: 2 where 11 holds too") \
    X(CONVERT_2_11_FIRST, "convert: 2 where 11 holds too, of tid 1") \
    X(CONVERT_2_UNUSED, \
      "convert: 2, down, an entry where no task is, alone") \
    X(CONVERT_2_UNUSED_11, \
      "convert: 2, down, such an entry, where 11 holds too") \
    X(CONVERT_2_KEPT, "convert: 2, new to new, tasks with entries") \
    X(CONVERT_2_KEPT_FIRST, "convert: 2, new to new, an entry of tid 1") \
    X(CONVERT_2_SAME_UNUSED, \
      "convert: 2, new to new, an entry where no task is, alone") \
    X(CONVERT_2_UNUSED_KEPT, \
      "convert: 2, new to new, such an entry beside a task's") \
    HAS_PATHS(X, CONVERT_11, "convert: 11") \
    X(CONVERT_CUT, "conversions ending in one cut short") \
    X(CONVERT_LONG, "conversions ending in too long a chunk")

#endif
