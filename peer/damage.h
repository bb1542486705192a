/* What the ways to damage an image share. */
#ifndef PEER_DAMAGE_H
#define PEER_DAMAGE_H

#include "images.h"

enum {
    ANY = 0xFE,
    IS_ACTIVE = 1 << STATE_ACTIVE, IS_READY = 1 << STATE_READY,
    IS_WAITING = 1 << STATE_SEND_BLOCKED,
    IS_SENDING = 1 << STATE_RECEIVE_BLOCKED,
    IS_REPLY = 1 << STATE_REPLY_BLOCKED, IS_EVENT = 1 << STATE_EVENT_BLOCKED,
    IS_EXITED = 1 << STATE_EXITED
};

/* A slot in one of the states; each state gets the same chance first. */
uint8_t *find(uint64_t *s, uint8_t *image, unsigned states);

bool in_one_queue(const uint8_t *a, const uint8_t *b);

/* Those behind move up. */
void leave_queue(uint8_t *image, const uint8_t *b);

void damage_waiters(uint64_t *s, uint8_t *image);

#endif
