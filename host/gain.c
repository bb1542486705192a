/* A host with three tasks: a client, a gain task that answers what the gain is, and a panel that asks for it when a key is pressed.
 * The gain task exits after one reading. The panel, whose question it has not received, is told a fault and does not hang; the client
 * asks again and is told a fault and not a number, although the old number still lies in its memory. Before it uses a reply the client
 * asks whether that came whole.
 *
 * Which code the next task runs the host finds by the entry number in that task's record, which the start or a Create gave it, and by
 * nothing that it keeps itself: an image that was stored says who runs what, whoever starts the host again. A number that is none of this
 * host's is no reason to call anything. */
#include <stdio.h>
#include <stdlib.h>
#include "bredonych.h"

enum { CLIENT = 1, GAIN = 2, KEY = 1, ASKED = 0, READING = 8, TRUE_GAIN = 42 };

/* This host has one edition for good, and so stores none: the panel alone waits for its key. */
enum { EDITION = BREDONYCH_ONE_WAITS };

/* The entry numbers of this host. 0 is none of them: it stands with tasks that were made before there were entry numbers. */
enum { GAIN_CODE = 1, PANEL_CODE, CLIENT_CODE };

static uint8_t image[BREDONYCH_IMAGE], areas[BREDONYCH_AREAS];

/* What a task is told as it becomes active. */
struct told {
    uint32_t next, kind;
    int32_t word;
    uint32_t from, cut;
};

static uint32_t word_at(const uint8_t *b)
{
    return b[0] | (uint32_t)b[1] << 8 | (uint32_t)b[2] << 16 | (uint32_t)b[3] << 24;
}

/* One step of the active task: a kind and its arguments. */
static struct told ask(int32_t kind, int32_t a, int32_t b, int32_t c, int32_t d, int32_t e)
{
    const int32_t words[6] = {kind, a, b, c, d, e};
    uint8_t record[BREDONYCH_REQUEST], answer[BREDONYCH_ANSWER];
    for (int i = 0; i < BREDONYCH_REQUEST; i++)
        record[i] = (uint8_t)((uint32_t)words[i / 4] >> (8 * (i % 4)) & 255u);
    uint32_t verdict = kernel_step(EDITION, image, sizeof image, areas, sizeof areas, record, sizeof record, answer, sizeof answer);
    if (verdict != BREDONYCH_ACCEPTED) {
        printf("refused by %u\n", (unsigned)verdict);
        exit(1);
    }
    return (struct told){word_at(answer + 4), word_at(answer + 8), (int32_t)word_at(answer + 12), word_at(answer + 16), word_at(answer + 20)};
}

/* Whether a reply came, and all of it: half a reading looks like a reading. */
static int whole(struct told told) { return told.kind == BREDONYCH_VALUE && told.cut == BREDONYCH_WHOLE; }

/* The client: makes the others, asks the gain task twice, and says what it learnt. */
static struct told client(struct told told)
{
    static int stage;
    switch (stage++) {
    case 0:
        printf("client: makes the gain task, of a higher priority and entry number %d\n", GAIN_CODE);
        return ask(BREDONYCH_CREATE, 8, GAIN_CODE, 0, 0, 0);
    case 1:
        printf("client: the gain task is task %d; makes the panel, of a still higher priority and entry number %d\n", (int)told.word,
               PANEL_CODE);
        return ask(BREDONYCH_CREATE, 4, PANEL_CODE, 0, 0, 0);
    case 2:
        printf("client: the panel is task %d; asks the gain task for the gain\n", (int)told.word);
        return ask(BREDONYCH_SEND, GAIN, ASKED, 1, READING, 1);
    case 3:
        if (!whole(told)) {
            printf("client: no whole reply, and so no reading\n");
            exit(1);
        }
        printf("client: a reply of %d byte, and whole: the gain is %d\n", (int)told.word, areas[READING]);
        printf("client: asks again\n");
        return ask(BREDONYCH_SEND, GAIN, ASKED, 1, READING, 1);
    default:
        if (told.kind == BREDONYCH_FAULT)
            printf("client: fault %d, no such task: there is no reading, though byte %d still holds the old %d\n", (int)told.word,
                   READING, areas[READING]);
        else
            printf("client: was told %d, which nobody measured\n", (int)told.word);
        exit(told.kind == BREDONYCH_FAULT ? 0 : 1);
    }
}

/* The panel: waits for its key, asks for the gain, and says what it learnt. */
static struct told panel(struct told told)
{
    static int stage;
    switch (stage++) {
    case 0:
        printf("panel: waits for its key\n");
        return ask(BREDONYCH_AWAIT_EVENT, KEY, 0, 0, 0, 0);
    case 1:
        printf("panel: asks the gain task for the gain, and waits until that receives\n");
        return ask(BREDONYCH_SEND, GAIN, ASKED, 1, READING, 1);
    default:
        if (told.kind != BREDONYCH_FAULT) {
            printf("panel: was told %d, which nobody measured\n", (int)told.word);
            exit(1);
        }
        printf("panel: fault %d, the gain task has exited and will not receive: there is no reading; exits\n", (int)told.word);
        return ask(BREDONYCH_EXIT, 0, 0, 0, 0, 0);
    }
}

/* The gain task: answers one question and is gone. A key is pressed while it measures. */
static struct told gain(struct told told)
{
    static int stage;
    switch (stage++) {
    case 0:
        printf("gain task: waits for a question\n");
        return ask(BREDONYCH_RECEIVE, 0, 4, 0, 0, 0);
    case 1:
        printf("gain task: a question of %d byte from task %u; measures, and is interrupted by a key\n", (int)told.word,
               (unsigned)told.from);
        return ask(BREDONYCH_EVENT, KEY, 0, 0, 0, 0);
    case 2:
        printf("gain task: goes on; it is %d\n", TRUE_GAIN);
        return ask(BREDONYCH_OWN_WRITE, 4, TRUE_GAIN, 0, 0, 0);
    case 3:
        printf("gain task: replies\n");
        return ask(BREDONYCH_REPLY, CLIENT, 4, 1, 0, 0);
    default:
        printf("gain task: %d byte was copied; exits\n", (int)told.word);
        return ask(BREDONYCH_EXIT, 0, 0, 0, 0, 0);
    }
}

static struct told (*const code[])(struct told) = {[GAIN_CODE] = gain, [PANEL_CODE] = panel, [CLIENT_CODE] = client};

/* Runs the task that is told something, by the code of its entry number. */
static struct told run(struct told told)
{
    uint32_t entry = word_at(image + (told.next - 1) * BREDONYCH_RECORD + BREDONYCH_ENTRY);
    if (entry >= sizeof code / sizeof code[0] || !code[entry]) {
        printf("task %u has entry number %u, and this host has no such code\n", (unsigned)told.next, (unsigned)entry);
        exit(1);
    }
    return code[entry](told);
}

int main(void)
{
    if (kernel_start(EDITION, 16, CLIENT_CODE, image, sizeof image) != BREDONYCH_ACCEPTED)
        return 1;
    printf("a kernel starts: task 1 is the client, of entry number %d\n", CLIENT_CODE);
    struct told told = {CLIENT, BREDONYCH_NOTHING, 0, 0, BREDONYCH_WHOLE};
    while (told.next != 0)
        told = run(told);
    return 1;
}
