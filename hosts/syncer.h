/* A thread that waits for the disk, or for the server of a store elsewhere, so that the program goes on meanwhile. */
#ifndef SYNCER_H
#define SYNCER_H

#include "bytes.h"
#include "histogram.h"
#include "store.h"

#include <pthread.h>
#include <stdbool.h>
#include <stdint.h>

struct syncer {
    pthread_t thread;
    pthread_mutex_t lock;
    pthread_cond_t wanted, rests;
    int file;               /* what is synced; or, if it isn't in a folder, */
    const struct store *store;    /* the store, */
    const char *name;             /* the name of what is put to, */
    struct bytes waiting;         /* and what waits to be put there */
    uint64_t asked, synced, told; /* how often that was asked for, up to where it is done, and up to where that was told */
    int fault;              /* of the first sync that failed, as errno has it, or of a store elsewhere a status; 0 for none */
    struct histogram took;  /* each sync */
    bool has_thread, is_busy, is_over;
    int event; /* can be read when more is synced */
};

/* Of files, or where a store is named, of what is put to this name there. False if there is no thread for it. */
bool syncer_begin(struct syncer *syncer, const struct store *store, const char *name);

/* What is to be put there next; false without memory. */
bool syncer_add(struct syncer *syncer, const void *bytes, size_t size);

/* What waits is put nowhere, and nothing is under way any more: what is written next has all of it. */
void syncer_drop(struct syncer *syncer);

/* Another file is synced from now on; all that was asked for before is durable. */
void syncer_turns_to(struct syncer *syncer, int file);

/* What was written up to now is to be durable: once so much is synced. */
uint64_t syncer_ask(struct syncer *syncer);

/* The same; of a file it is done when this answers, if the thread has nothing to do: that spares two changes of threads. */
uint64_t syncer_sync(struct syncer *syncer);

/* Up to where it is done; and the fault, if there is one. */
uint64_t syncer_synced(struct syncer *syncer, int *fault);

/* How long syncs took. */
struct histogram syncer_took(struct syncer *syncer);

/* Ends the thread, once all is done that was asked for. */
void syncer_end(struct syncer *syncer);

#endif
