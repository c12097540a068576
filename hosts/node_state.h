/* A process as its host has it: its node, and all that it is carried by. */
#ifndef NODE_STATE_H
#define NODE_STATE_H

#include "figures.h"
#include "options.h"
#include "pace.h"
#include "slots.h"
#include "store.h"
#include "transport.h"

#include <sblog.h>

struct node_host {
    const struct options *options;
    const struct cluster *cluster;
    struct store store;
    struct ids ids;
    struct slots slots;
    struct transport transport;
    struct pace pace;
    struct metrics metrics;
    struct histogram syncs;
    sblog_node node;
    sblog_standing standing;
    struct bytes heard; /* what bundles of this turn tell the pace */
    uint8_t *image, *state, *bytes; /* state: what a new store begins with, or null: zeros */
    size_t image_size, state_size, room;
    uint64_t started, next_tick, pause, next_checkpoint;
    uint64_t checkpoints;
    uint64_t untaken;   /* messages of a node that was resumed: no receiver had said that it took them */
    uint64_t confirmed; /* packets that were queued while the store was this life's */
    size_t came;        /* packets, in this turn */
    bool has_written;   /* in this turn */
    bool is_resumed;
    bool was_up, was_exact, store_is_inexact, wants_memory, has_told_waits;
    uint8_t packets[PACKET_LIMIT];
};

/* Takes all that a life needs, and begins it; a status. */
int node_begin(struct node_host *host);

/* Whether that would do: nothing is taken or written. The status that it would have, and a line a fault. */
int node_look(struct node_host *host);

/* Opens the node as it is in its store, and takes or writes nothing. It has to be suspended; a status. */
int node_reopen(struct node_host *host);

/* Bytes of the node, of whatever size: of a checkpoint, or all of it. A code of the library. */
uint32_t node_bytes(struct node_host *host, uint32_t (*call)(sblog_node *, uint8_t *, size_t, size_t *), size_t *size);

#endif
