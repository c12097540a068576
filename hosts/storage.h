/* Where stores lie: in folders, a bucket of NATS JetStream, or a table of PostgreSQL. Each function answers a status, and why is
   reported. */
#ifndef STORAGE_H
#define STORAGE_H

#include <stddef.h>
#include <stdint.h>

struct store;

struct storage {
    /* Finds the place. Nothing is made where the store is only looked at. */
    int (*open)(struct store *store, const char *where);
    /* The store is this life's from now on, and no earlier one's: those can't write any more. If it is only looked at, says whether
       that could be. */
    int (*claim)(struct store *store);
    /* All that was written under a name and put behind it, to be freed; null where there is nothing. */
    int (*read)(const struct store *store, const char *name, uint8_t **bytes, size_t *size);
    /* Replaces it: whole or not at all, and durable. */
    int (*write)(const struct store *store, const char *name, const void *bytes, size_t size);
    /* Puts more behind it, whole or not at all, and durable. None of a folder, where the gateway's log has files of its own. */
    int (*append)(const struct store *store, const char *name, const void *bytes, size_t size);
    void (*close)(struct store *store);
};

extern const struct storage folder_storage, nats_storage, postgres_storage;

#endif
