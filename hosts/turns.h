/* What the gateway's turns leave to do once their changes are durable: answers, packets, and outputs that may be printed then. */
#ifndef TURNS_H
#define TURNS_H

#include "answers.h"
#include "bytes.h"
#include "pace.h"

#include <stdbool.h>
#include <stddef.h>
#include <stdint.h>

enum { TURNS_LIMIT = 1024 }; /* from which on nothing is read until the disk has caught up */

struct turn {
    struct turn *next;
    uint64_t until; /* which sync it waits for */
    bool is_tick;
    size_t outputs;
    struct bytes answers, packets, heard;
};

struct turns {
    struct turn *first, *last;
    size_t count;
};

/* An empty one, which waits for so many syncs; null without memory. */
struct turn *turn_new(uint64_t until);
void turn_end(struct turn *turn);
bool turn_is_empty(const struct turn *turn);

/* Packets are to be sent to a process; false without memory. */
bool turn_sends(struct turn *turn, int to, struct packets packets);

/* Its packets go, and the pace learns from what came. */
void turn_goes(const struct turn *turn, struct pace *pace, uint64_t now);

/* Its answers are given. */
void turn_answers(const struct turn *turn, const struct cluster *cluster, bool is_pipe);

/* Put after the others; and the first one, if it waits for no more than so many syncs, else null. */
void turns_put(struct turns *turns, struct turn *turn);
struct turn *turns_take(struct turns *turns, uint64_t synced);

#endif
