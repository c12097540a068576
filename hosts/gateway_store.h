/* What the gateway keeps: a store, the changes since, and the outputs that nobody has taken. Two files of its folder, which are written
   in turn, have a head, the store, and a record for each turn since (docs/FORMATS.md, "Log of the gateway"). What was written outlives
   a kill of the program, and a loss of power once it is synced, which a thread waits for. Elsewhere than in a folder it is one file, to
   which that thread puts the records; what it hasn't put is lost by a kill. */
#ifndef GATEWAY_STORE_H
#define GATEWAY_STORE_H

#include "bytes.h"
#include "outputs.h"
#include "store.h"
#include "syncer.h"

#include <stdbool.h>
#include <stddef.h>
#include <stdint.h>

struct gateway_store {
    const struct store *folder;
    int files[2]; /* -1: none */
    uint64_t room[2];     /* bytes of each file that were written once, so that a sync has no more to write than what changed */
    uint64_t generation;  /* of the file that is written now, which is file generation % 2 */
    uint64_t at;          /* where its next record goes */
    size_t whole, behind; /* bytes of the store, and of the records after it */
    uint64_t asked;       /* the last sync that was asked for */
    bool waits;           /* elsewhere: a record does, for which none was */
    struct syncer syncer;
    struct bytes record;
};

/* Reads what there is; a status, and why is reported. No store is null. */
int gateway_store_open(struct gateway_store *store, const struct store *folder, struct bytes *whole, struct bytes *changes,
                       struct outputs *outputs);

/* How a record becomes durable: never by itself, so it may be lost with the power; by the thread; or before this program goes on, if the
   thread rests. */
enum sync { SYNC_NONE, SYNC_SOON, SYNC_NOW };

/* One record: changes, outputs that weren't in one yet, and which are taken. It is durable once store->asked syncs are done. Elsewhere
   than in a folder gateway_store_confirm asks for them. */
int gateway_store_append(struct gateway_store *store, const uint8_t *changes, size_t size, const struct outputs *outputs, enum sync sync);

/* A whole store and the outputs that nobody has taken, in place of all before. It is durable when this answers, and so is all that
   was appended. */
int gateway_store_replace(struct gateway_store *store, const uint8_t *whole, size_t size, const struct outputs *outputs);

/* Which sync is to be waited for by what goes out. Elsewhere than in a folder, where another life may have followed, that is one that is
   asked for here, if anything goes out or records wait. */
uint64_t gateway_store_confirm(struct gateway_store *store, bool goes_out);

/* Up to which sync all is durable; a status. */
int gateway_store_synced(struct gateway_store *store, uint64_t *synced);

/* Makes all durable that was appended, and rests; a status. */
int gateway_store_finish(struct gateway_store *store);

/* Waits until all is durable that was asked for; nothing is asked for from then on. */
void gateway_store_rest(struct gateway_store *store);
void gateway_store_close(struct gateway_store *store);

#endif
