/* A store in a bucket of NATS JetStream (hosts/README.md, "Their bytes"). A life claims it when it writes the key of the files, and in the
   place of the next piece of the life before a stone that stays. */
#include "nats_bucket.h"
#include "report.h"
#include "store.h"

#ifdef WITH_NATS

#include "files.h"

#include <string.h>

static const char LOG[] = "gateway"; /* the file that pieces are put behind */

/* Reads the files, and claims them, unless the store is only looked at. */
static int claim_files(const struct store *store) {
    struct bucket *bucket = store->place;
    struct bytes value, *files = &bucket->files;
    int status = bucket_get(store, FILES, &value, &bucket->revision);
    files->size = 0;
    bucket->claim = value.at ? number_at(value.at, WORD) + 1 : 1;
    bucket->covered = value.at ? (struct key){number_at(value.at + WRITER, WORD), number_at(value.at + BASE, WORD)} : FILES;
    bool has_memory = !value.at || bytes_add(files, value.at + HEAD, value.size - HEAD);
    bytes_end(&value);
    if (status == STATUS_DONE && !bucket_fits(store, HEAD + files->size)) status = STATUS_IO;
    if (status != STATUS_DONE || store->is_looked_at) return status;
    return has_memory ? bucket_put(store, FILES, bucket->covered, files->at, files->size, &bucket->revision) : store_lacks_memory(store);
}

/* What the life that wrote the files whole put behind them; where its next piece would be, and the revision of the stone there. */
static int read_pieces(const struct store *store, struct bytes *all, struct key *end, uint64_t *stone) {
    struct bytes piece = {0};
    bool is_piece, has_memory = true;
    int status;
    *end = ((const struct bucket *)store->place)->covered;
    do {
        end->piece++;
        status = bucket_get(store, *end, &piece, stone);
        is_piece = piece.at && number_at(piece.at, WORD) == end->writer;
        if (is_piece) has_memory = has_memory && bytes_add(all, piece.at + HEAD, piece.size - HEAD);
        bytes_end(&piece);
    } while (is_piece);
    return status == STATUS_DONE && !has_memory ? store_lacks_memory(store) : status;
}

/* Reads the pieces, and puts a stone where an earlier life would put its next one; MOVED where it put one there meanwhile. */
static int claim_end(const struct store *store) {
    struct bucket *bucket = store->place;
    struct key end;
    bytes_end(&bucket->pieces);
    int status = read_pieces(store, &bucket->pieces, &end, &bucket->stone);
    return status != STATUS_DONE || bucket->stone > 0 ? status : bucket_put(store, end, FILES, "", 0, &bucket->stone);
}

static int nats_claim(struct store *store) {
    const struct bucket *bucket = store->place;
    int status;
    do status = claim_files(store);
    while (status == MOVED);
    bool has_pieces = status == STATUS_DONE && bucket->covered.writer > 0 && !store->is_looked_at;
    while (has_pieces && (status = claim_end(store)) == MOVED) continue;
    return status;
}

static int nats_read(const struct store *store, const char *name, uint8_t **bytes, size_t *size) {
    struct bucket *bucket = store->place;
    struct bytes all = {0}, *pieces = &bucket->pieces;
    struct key end;
    uint64_t stone;
    const uint8_t *found = files_find(&bucket->files, name, size);
    bool is_log = found && !strcmp(name, LOG), has_memory = bytes_add(&all, found, *size);
    int status = is_log && store->is_looked_at ? read_pieces(store, pieces, &end, &stone) : STATUS_DONE;
    if (is_log) has_memory = has_memory && bytes_add(&all, pieces->at, pieces->size);
    *size = all.size;
    has_memory = has_memory && bytes_add(&all, "", 1);
    *bytes = found ? all.at : NULL;
    return status == STATUS_DONE && !has_memory ? store_lacks_memory(store) : status;
}

static int nats_write(const struct store *store, const char *name, const void *bytes, size_t size) {
    struct bucket *bucket = store->place;
    struct bytes anew = {0};
    bool is_log = !strcmp(name, LOG);
    const struct key covered = is_log ? (struct key){bucket->claim, bucket->last} : bucket->covered;
    bool has_memory = files_with(&bucket->files, name, bytes, size, &anew);
    int status = has_memory ? bucket_put(store, FILES, covered, anew.at, anew.size, &bucket->revision) : store_lacks_memory(store);
    bytes_end(status == STATUS_DONE ? &bucket->files : &anew);
    if (status != STATUS_DONE) return status == MOVED ? store_is_lost(store) : status;
    bucket->files = anew;
    uint64_t writer = bucket->covered.writer;
    if (is_log) bucket_purge(store, writer, writer == bucket->claim ? bucket->revision : bucket->stone);
    bucket->covered = covered;
    return STATUS_DONE;
}

/* This life has put the log there whole before. */
static int nats_append(const struct store *store, const char *name, const void *bytes, size_t size) {
    struct bucket *bucket = store->place;
    uint64_t revision = 0;
    (void)name; /* it is LOG */
    int status = bucket_put(store, (struct key){bucket->claim, ++bucket->last}, FILES, bytes, size, &revision);
    return status == MOVED ? store_is_lost(store) : status;
}

const struct storage nats_storage = {bucket_open, nats_claim, nats_read, nats_write, nats_append, bucket_close};

#else

const struct storage nats_storage = {0};

#endif
