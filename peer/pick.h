/* One of a few signed numbers, for generators. */
#ifndef PEER_PICK_H
#define PEER_PICK_H

#include "generate.h"

static inline int32_t pick(uint64_t *seed, const int32_t *from, uint32_t count)
{
    return from[below(seed, count)];
}

#define PICK(seed, ...) \
    pick(seed, (const int32_t[]){__VA_ARGS__}, \
         sizeof(int32_t[]){__VA_ARGS__} / sizeof(int32_t))

#endif
