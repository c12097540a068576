#include "gateway_store.h"

#include "checksum.h"
#include "report.h"

#include <errno.h>
#include <fcntl.h>
#include <stdlib.h>
#include <string.h>
#include <unistd.h>

/* Where the store begins; bytes that are written before they are used, at once. */
enum { BLOCK = 4096, AHEAD = 1 << 20 };

/* What a piece of a store elsewhere counts as, beside its bytes: the next life may have to read each on its own. */
enum { PIECE = 1 << 15 };

static const char *const NAMES[2] = {"gateway.0", "gateway.1"}, *const BEFORE = "gateway.sqlite", MAGIC[] = "SBL1";
static const char *const LOG = "gateway"; /* elsewhere than in a folder: a file that ends with its last record */

/* A head: MAGIC, the checksum of all after it and of what it is the head of, the generation, bytes of the store, bytes of the items
   after it. */
enum { CHECKSUM = 4, GENERATION = 8, STORE = 16, ITEMS = 24, HEAD = 32, WORD = 8, HALF = 4 };

/* A record: bytes of its items, the checksum of generation, place, that length and the items. */
enum { RECORD = 8 };

/* Items: changes after their length; an output, which was handed out; that those of a process are taken up to an SSN. */
enum item { CHANGES = 1, OUTPUT, TAKEN };
enum { CHANGES_HEAD = 5, OUTPUT_HEAD = 12, TAKEN_SIZE = 10, OUTPUT_SIZE = 2 };

static int failed(const struct gateway_store *store, int which) {
    report_fault("%s/%s", store->folder->path, NAMES[which]);
    return STATUS_IO;
}

static bool write_at(int file, const uint8_t *bytes, size_t size, uint64_t at) {
    while (size > 0) {
        errno = 0; /* a write of nothing tells none */
        ssize_t count = pwrite(file, bytes, size, (off_t)at);
        if (count < 0 && errno == EINTR) continue;
        if (count <= 0) return false;
        bytes += count;
        at += (uint64_t)count;
        size -= (size_t)count;
    }
    return true;
}

static bool has_room(struct gateway_store *store, int which, uint64_t end) {
    static const uint8_t zeros[AHEAD];
    while (store->room[which] < end) {
        if (!write_at(store->files[which], zeros, sizeof zeros, store->room[which])) return false;
        store->room[which] += sizeof zeros;
    }
    return true;
}

static bool add_changes(struct bytes *items, const uint8_t *changes, size_t size) {
    uint8_t head[CHANGES_HEAD] = {CHANGES};
    if (size == 0) return true;
    number_put(head + 1, size, HALF);
    return bytes_add(items, head, sizeof head) && bytes_add(items, changes, size);
}

static bool add_outputs(struct bytes *items, const struct outputs *outputs, size_t from) {
    for (size_t i = from; i < outputs->count; i++) {
        const struct output *output = &outputs->all[i];
        uint8_t head[OUTPUT_HEAD] = {OUTPUT, output->process};
        number_put(head + 2, output->ssn, WORD);
        number_put(head + OUTPUT_HEAD - OUTPUT_SIZE, output->size, OUTPUT_SIZE);
        if (!bytes_add(items, head, sizeof head) || !bytes_add(items, output->payload, output->size)) return false;
    }
    return true;
}

static bool add_taken(struct bytes *items, const struct outputs *outputs) {
    for (int p = 1; p <= PROCESS_LIMIT; p++) {
        uint8_t item[TAKEN_SIZE] = {TAKEN, (uint8_t)p};
        number_put(item + 2, outputs->taken[p], WORD);
        if (outputs->taken[p] > 0 && !bytes_add(items, item, sizeof item)) return false;
    }
    return true;
}

/* Of items whose front says so: generation, place and length of a record. */
static uint32_t record_checksum(uint64_t generation, uint64_t at, const uint8_t *items, size_t size) {
    uint8_t front[2 * WORD + HALF];
    number_put(front, generation, WORD);
    number_put(front + WORD, at, WORD);
    number_put(front + 2 * WORD, size, HALF);
    return checksum(checksum(0, front, sizeof front), items, size);
}

int gateway_store_append(struct gateway_store *store, const uint8_t *changes, size_t size, const struct outputs *outputs, enum sync sync) {
    static const uint8_t zeros[RECORD];
    int which = (int)(store->generation % 2);
    struct bytes *record = &store->record;
    record->size = 0;
    bool is_there = bytes_add(record, zeros, RECORD) && add_changes(record, changes, size) &&
                    add_outputs(record, outputs, outputs->written) && add_taken(record, outputs);
    if (!is_there) return store_lacks_memory(store->folder);
    if (record->size == RECORD) return STATUS_DONE;
    size_t items = record->size - RECORD;
    number_put(record->at, items, HALF);
    number_put(record->at + HALF, record_checksum(store->generation, store->at, record->at + RECORD, items), HALF);
    if (store_is_remote(store->folder)) {
        if (!syncer_add(&store->syncer, record->at, record->size)) return store_lacks_memory(store->folder);
        store->waits = true;
    } else if (!has_room(store, which, store->at + record->size) ||
               !write_at(store->files[which], record->at, record->size, store->at)) {
        return failed(store, which);
    }
    store->at += record->size;
    store->behind += record->size;
    if (sync != SYNC_NONE && !store_is_remote(store->folder))
        store->asked = sync == SYNC_NOW ? syncer_sync(&store->syncer) : syncer_ask(&store->syncer);
    return STATUS_DONE;
}

static uint32_t head_checksum(const uint8_t *head, const uint8_t *body, size_t size) {
    return checksum(checksum(0, head + GENERATION, HEAD - GENERATION), body, size);
}

/* What follows the block of the head, then the head, each durable before what follows. */
static int write_file(struct gateway_store *store, int which, const struct bytes *all) {
    bool is_new = store->files[which] < 0;
    if (is_new) store->files[which] = openat(store->folder->folder, NAMES[which], O_RDWR | O_CREAT | O_TRUNC | O_CLOEXEC, 0600);
    int file = store->files[which];
    bool is_durable = file >= 0 && has_room(store, which, all->size) && write_at(file, all->at + BLOCK, all->size - BLOCK, BLOCK) &&
                      fdatasync(file) == 0 && write_at(file, all->at, HEAD, 0) && fdatasync(file) == 0 &&
                      (!is_new || fsync(store->folder->folder) == 0);
    return is_durable ? STATUS_DONE : failed(store, which);
}

/* What waited is in it. */
static int write_log(struct gateway_store *store, const struct bytes *all) {
    syncer_drop(&store->syncer);
    return store_write(store->folder, LOG, all->at, all->size);
}

int gateway_store_replace(struct gateway_store *store, const uint8_t *whole, size_t size, const struct outputs *outputs) {
    static const uint8_t zeros[BLOCK];
    if (store->folder->is_looked_at) return STATUS_DONE;
    uint64_t generation = store->generation + 1;
    int which = (int)(generation % 2);
    struct bytes *all = &store->record;
    all->size = 0;
    bool is_there = bytes_add(all, zeros, BLOCK) && bytes_add(all, whole, size) && add_outputs(all, outputs, 0);
    if (!is_there) return store_lacks_memory(store->folder);
    memcpy(all->at, MAGIC, CHECKSUM);
    number_put(all->at + GENERATION, generation, WORD);
    number_put(all->at + STORE, size, WORD);
    number_put(all->at + ITEMS, all->size - BLOCK - size, WORD);
    number_put(all->at + CHECKSUM, head_checksum(all->at, all->at + BLOCK, all->size - BLOCK), HALF);
    int status = store_is_remote(store->folder) ? write_log(store, all) : write_file(store, which, all);
    if (status != STATUS_DONE) return status;
    store->generation = generation;
    store->at = all->size;
    store->whole = size;
    store->behind = 0;
    syncer_turns_to(&store->syncer, store->files[which]);
    return STATUS_DONE;
}

/* Takes in one item; how many bytes it has, 0 for what is none. */
static size_t read_item(const uint8_t *item, size_t left, struct bytes *changes, struct outputs *outputs) {
    size_t size = left < CHANGES_HEAD ? 0 : number_at(item + 1, HALF);
    if (item[0] == CHANGES && size > 0 && size <= left - CHANGES_HEAD)
        return bytes_add(changes, item + CHANGES_HEAD, size) ? CHANGES_HEAD + size : 0;
    if (left < TAKEN_SIZE || item[1] < 1 || item[1] > PROCESS_LIMIT) return 0;
    uint64_t ssn = number_at(item + 2, WORD);
    if (item[0] == TAKEN) {
        outputs->taken[item[1]] = ssn;
        outputs_forget(outputs);
        return TAKEN_SIZE;
    }
    if (item[0] != OUTPUT || left < OUTPUT_HEAD) return 0;
    size = number_at(item + OUTPUT_HEAD - OUTPUT_SIZE, OUTPUT_SIZE);
    if (size > PAYLOAD_LIMIT || size > left - OUTPUT_HEAD) return 0;
    struct output *output = outputs_place(outputs);
    if (!output) return 0;
    *output = (struct output){.process = item[1], .ssn = ssn, .size = size};
    memcpy(output->payload, item + OUTPUT_HEAD, size);
    outputs_add(outputs);
    return OUTPUT_HEAD + size;
}

static bool read_items(const uint8_t *items, size_t size, struct bytes *changes, struct outputs *outputs) {
    size_t one = 1;
    while (size > 0 && (one = read_item(items, size, changes, outputs)) > 0) {
        items += one;
        size -= one;
    }
    return one > 0;
}

/* The records after a store, as far as they are whole. */
static bool read_records(const struct gateway_store *store, const uint8_t *all, size_t length, struct bytes *changes,
                         struct outputs *outputs) {
    uint64_t at = store->at;
    while (at + RECORD <= length) {
        size_t size = number_at(all + at, HALF);
        const uint8_t *items = all + at + RECORD;
        if (size == 0 || size > length - at - RECORD) return true;
        if (number_at(all + at + HALF, HALF) != record_checksum(store->generation, at, items, size)) return true;
        if (!read_items(items, size, changes, outputs)) return false;
        at += RECORD + size;
    }
    return true;
}

/* The generation of a file that was written whole; 0 of another one. */
static uint64_t generation_of(const uint8_t *all, size_t length) {
    if (!all || length < BLOCK || memcmp(all, MAGIC, CHECKSUM) != 0) return 0;
    uint64_t size = number_at(all + STORE, WORD), items = number_at(all + ITEMS, WORD), most = length - BLOCK;
    if (size > most || items > most - size) return 0;
    return number_at(all + CHECKSUM, HALF) == head_checksum(all, all + BLOCK, size + items) ? number_at(all + GENERATION, WORD) : 0;
}

/* The last file that is whole; a status. */
static int read_last(struct gateway_store *store, uint8_t *const all[2], const size_t lengths[2], struct bytes *whole,
                     struct bytes *changes, struct outputs *outputs) {
    uint64_t generations[2] = {generation_of(all[0], lengths[0]), generation_of(all[1], lengths[1])};
    int last = generations[1] > generations[0];
    if (generations[last] == 0) return STATUS_DONE;
    const uint8_t *file = all[last];
    size_t size = number_at(file + STORE, WORD), items = number_at(file + ITEMS, WORD);
    store->generation = generations[last];
    store->at = BLOCK + size + items;
    bool is_read = bytes_add(whole, file + BLOCK, size) && read_items(file + BLOCK + size, items, changes, outputs) &&
                   read_records(store, file, lengths[last], changes, outputs);
    outputs_are_kept(outputs);
    if (is_read) return STATUS_DONE;
    report("%s/%s holds what no gateway wrote", store->folder->path, store_is_remote(store->folder) ? LOG : NAMES[last]);
    return STATUS_STORE;
}

static int open_files(struct gateway_store *store, uint8_t *all[2], size_t lengths[2]) {
    if (store_is_remote(store->folder)) return store_read(store->folder, LOG, &all[0], &lengths[0]);
    if (faccessat(store->folder->folder, BEFORE, F_OK, 0) == 0) {
        report("%s/%s is of another version of this program", store->folder->path, BEFORE);
        return STATUS_STORE;
    }
    for (int i = 0; i < 2; i++) {
        int status = store_read(store->folder, NAMES[i], &all[i], &lengths[i]);
        if (status != STATUS_DONE) return status;
        if (!all[i]) continue;
        if (store->folder->is_looked_at) continue;
        store->files[i] = openat(store->folder->folder, NAMES[i], O_RDWR | O_CLOEXEC);
        store->room[i] = lengths[i];
        if (store->files[i] < 0) return failed(store, i);
    }
    return STATUS_DONE;
}

int gateway_store_open(struct gateway_store *store, const struct store *folder, struct bytes *whole, struct bytes *changes,
                       struct outputs *outputs) {
    uint8_t *all[2] = {NULL, NULL};
    size_t lengths[2] = {0, 0};
    *store = (struct gateway_store){.folder = folder, .files = {-1, -1}};
    int status = open_files(store, all, lengths);
    if (status == STATUS_DONE) status = read_last(store, all, lengths, whole, changes, outputs);
    free(all[0]);
    free(all[1]);
    const struct store *remote = store_is_remote(folder) ? folder : NULL;
    if (status != STATUS_DONE || folder->is_looked_at || syncer_begin(&store->syncer, remote, LOG)) return status;
    report_fault("%s: there is no thread", folder->path);
    return STATUS_MEMORY;
}

uint64_t gateway_store_confirm(struct gateway_store *store, bool goes_out) {
    if (!store_is_remote(store->folder) || (!goes_out && !store->waits)) return store->asked;
    store->behind += PIECE;
    store->waits = false;
    return store->asked = syncer_ask(&store->syncer);
}

int gateway_store_synced(struct gateway_store *store, uint64_t *synced) {
    int fault;
    *synced = syncer_synced(&store->syncer, &fault);
    if (!fault || store_is_remote(store->folder)) return fault;
    errno = fault;
    return failed(store, (int)(store->generation % 2));
}

int gateway_store_finish(struct gateway_store *store) {
    uint64_t synced;
    store->asked = syncer_ask(&store->syncer);
    gateway_store_rest(store);
    return gateway_store_synced(store, &synced);
}

void gateway_store_rest(struct gateway_store *store) { syncer_end(&store->syncer); }

void gateway_store_close(struct gateway_store *store) {
    bytes_end(&store->record);
    for (int i = 0; i < 2; i++)
        if (store->files[i] >= 0) close(store->files[i]);
}
