/* The store of a process: whose it is, a claim that one life has at a time, and bytes under names that are replaced whole or not at
   all. */
#ifndef STORE_H
#define STORE_H

#include "cluster.h"
#include "id.h"
#include "storage.h"

#include <stdbool.h>
#include <stddef.h>
#include <stdint.h>

struct store {
    const struct storage *storage;
    const char *path;           /* as sentences name it: without a password */
    char key[NAME_LIMIT + 4];   /* CLUSTER.PROCESS, where stores of several lie together */
    int folder, lock;           /* of a folder; else -1 */
    void *place;                /* of a bucket or a table */
    bool is_looked_at;          /* nothing is written: what would be counts as written */
};

/* Who may use a store: all of it has to be as it was in the first life. */
struct owner {
    const struct cluster *cluster;
    int me;
    const char *image; /* the image's hash; none of the gateway */
    bool durable;
};

/* Finds the store that --store or --inspect names, of this process. A folder has the store of one, and needs no cluster. */
int store_find(struct store *store, const char *where, const char *cluster, int me, bool looks);

/* Whether it is none of a folder, and so outlives the machine. */
bool store_is_remote(const struct store *store);

/* Finds and claims it, and compares whose it is; a status, and why is reported. Where nobody's name is in it yet, is_new is true; else
   its ids are read. With looks nothing is made or kept claimed. */
int store_open(struct store *store, const char *where, const struct owner *owner, bool looks, struct ids *ids, bool *is_new);

/* The last of that: of a store that was claimed, whose it is. */
int store_judge(const struct store *store, const struct owner *owner, struct ids *ids, bool *is_new);

/* Whose the store is, as its file says, to be freed; null if nobody's name is in it. */
int store_read_identity(const struct store *store, char **text);

/* Writes down whose the store is, with its ids. */
int store_write_identity(const struct store *store, const struct owner *owner, const struct ids *ids);

/* As storage has it. */
int store_write(const struct store *store, const char *name, const void *bytes, size_t size);
int store_read(const struct store *store, const char *name, uint8_t **bytes, size_t *size);

/* A write of nothing, which tells whether the store is this life's still. */
int store_confirm(const struct store *store);

/* A write that another life's claim forbids, or that lacks memory: a status. */
int store_is_lost(const struct store *store);
int store_lacks_memory(const struct store *store);

/* The incarnation that is stored, 0 for none. */
int store_read_incarnation(const struct store *store, uint64_t *incarnation);
int store_write_incarnation(const struct store *store, uint64_t incarnation);

/* The first life that wasn't exact, 0 for none. */
int store_read_inexact(const struct store *store, uint64_t *incarnation);
int store_write_inexact(const struct store *store, uint64_t incarnation);

/* Of a gateway: the name of the cluster that goes on where this one ended, to be freed; null for none. */
int store_read_follower(const struct store *store, char **name);
int store_write_follower(const struct store *store, const char *name);

void store_close(struct store *store);

#endif
