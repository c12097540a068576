/* A bucket of NATS JetStream: a key for all files of a store, and one for each piece that a life put behind the gateway's log. JetStream
   takes a value only where the last one under its key has the revision that the writer tells. A number that a function answers is a status,
   and why is reported. */
#ifndef NATS_BUCKET_H
#define NATS_BUCKET_H

#ifdef WITH_NATS

#include "bytes.h"
#include "id.h"
#include "nats_connection.h"
#include "store.h"

/* A value's head: the claim and the mark of the life that wrote it; of the files whose pieces follow, and the last one that they cover. */
enum { MARK = 8, WRITER = 16, BASE = 24, HEAD = 32, WORD = 8 };

enum { URL_TEXT = 512, MOVED = -1 /* another life wrote meanwhile */ };

/* Of a life's piece, 1, 2 and on; or of the files. */
struct key {
    uint64_t writer, piece;
};

static const struct key FILES = {0, 0};

/* The place of a store. */
struct bucket {
    natsConnection *connection;
    jsCtx *jet;
    char url[URL_TEXT], path[URL_TEXT], stream[URL_TEXT];
    struct id mark;
    uint64_t claim, last, revision; /* this life's, its last piece, and the revision of the files */
    struct key covered;             /* whose pieces follow the files, and the last one that is in them */
    uint64_t stone;                 /* the revision of what stands behind those */
    struct bytes files, pieces;     /* as the claim found them */
};

/* As storage has them. */
int bucket_open(struct store *store, const char *where);
void bucket_close(struct store *store);

/* Whether a value fits the server's limit, as far as that is known. */
bool bucket_fits(const struct store *store, size_t size);

/* The last value under a key, as the leader has it, and its revision; no bytes and 0 for none. */
int bucket_get(const struct store *store, struct key key, struct bytes *value, uint64_t *revision);

/* Puts bytes in this life's name over the value of this revision, which becomes theirs; MOVED where another life wrote meanwhile. */
int bucket_put(const struct store *store, struct key key, struct key covered, const void *bytes, size_t size, uint64_t *revision);

/* A life's pieces that are older than this revision go; those that can't go now do so the next time. */
void bucket_purge(const struct store *store, uint64_t writer, uint64_t revision);

#endif

#endif
