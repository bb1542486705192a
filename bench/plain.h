/* A step as one would write it by hand and trust: no check of the table, and none of the request but for the faults that it has. It has the
 * rule of edition 1 alone, which the workload runs in. */
#ifndef PLAIN_H
#define PLAIN_H

#include <stdint.h>

enum { PLAIN_TASKS = 32, PLAIN_PRIORITIES = 32, PLAIN_EVENTS = 64, PLAIN_AREA = 256, PLAIN_RECORD = 24, PLAIN_IMAGE = PLAIN_TASKS * PLAIN_RECORD };

struct plain_request {
    int32_t kind, arg[5];
};

struct plain_answer {
    uint32_t verdict, next, kind;
    int32_t number;
    uint32_t from, cut;
};

void plain_start(uint8_t priority, uint32_t entry);
struct plain_answer plain_step(const struct plain_request *q, uint8_t *areas);
void plain_image(uint8_t *image); /* the table as stored records, to compare it */

#endif
