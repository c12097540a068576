/* Whether stores that were cut off in the midst of a write hold what was before it, or what it wrote, and nothing else: prefixes of a
   slot, of a record and of a renewed log, blocks of 512 bytes in any order, and records that are missing. torn FOLDER */
#include "../../hosts/bytes.h"
#include "../../hosts/checksum.h"
#include "../../hosts/gateway_store.h"
#include "../../hosts/slots.h"

#include <fcntl.h>
#include <stdio.h>
#include <stdlib.h>
#include <string.h>
#include <unistd.h>

enum { SECTOR = 512, SLOT_HEAD = 24, CHECKSUM = 4, BLOCK = 4096, LOG_HEAD = 32, RANDOM = 40 };

static struct store folder;
static long tried;

static void must(bool is_so, const char *what, size_t at) {
    tried++;
    if (is_so) return;
    fprintf(stderr, "wrong: %s, %zu\n", what, at);
    exit(1);
}

struct image {
    uint8_t *bytes;
    size_t size;
};

static struct image read_file(const char *name) {
    struct image image;
    must(store_read(&folder, name, &image.bytes, &image.size) == 0, name, 0);
    return image;
}

/* As a program that was cut off leaves it: the file stays the same one, and nothing is synced. */
static void leave(const char *name, const uint8_t *bytes, size_t size) {
    int file = openat(folder.folder, name, O_RDWR | O_CREAT, 0600);
    must(file >= 0 && pwrite(file, bytes, size, 0) == (ssize_t)size && ftruncate(file, (off_t)size) == 0, name, size);
    close(file);
}

/* Bytes that end with their checksum, as all have that are kept. */
static uint8_t *filled(size_t size, int with) {
    uint8_t *bytes = malloc(size + 1);
    for (size_t i = 0; i < size; i++) bytes[i] = (uint8_t)((size_t)with * 31 + i * 7 + i / 256);
    if (size > CHECKSUM) number_put(bytes + size - CHECKSUM, checksum(0, bytes, size - CHECKSUM), CHECKSUM);
    return bytes;
}

/* The slots hold one of both, and the second only if nothing of it is missing; and take what is written next. */
static void holds(const struct image *was, const struct image *is, bool is_all, size_t at) {
    struct slots slots;
    uint8_t *bytes, *next = filled(100, 99);
    size_t size;
    const struct image *right = is_all ? is : was;
    must(slots_open(&slots, &folder, &bytes, &size) == 0, "slots can't be opened", at);
    must(size == right->size && !memcmp(bytes, right->bytes, size), "a slot holds something else", at);
    free(bytes);
    must(slots_write(&slots, next, 100) == 0, "a slot can't be written", at);
    slots_close(&slots);
    must(slots_open(&slots, &folder, &bytes, &size) == 0 && size == 100 && !memcmp(bytes, next, size), "a slot isn't written", at);
    slots_close(&slots);
    free(bytes);
    free(next);
}

/* Each prefix of what changed, then some of its blocks. */
static void tear_slot(const struct image *before, const struct image *after, size_t from, const struct image *was, const struct image *is) {
    size_t whole = SLOT_HEAD + is->size;
    uint8_t *torn = malloc(before->size);
    for (size_t cut = 0; cut <= whole; cut += whole > 2000 && cut > 100 && cut + 200 < whole ? 97 : 1) {
        memcpy(torn, before->bytes, before->size);
        memcpy(torn + from, after->bytes + from, cut);
        leave("kept", torn, before->size);
        holds(was, is, !memcmp(torn, after->bytes, before->size), cut);
    }
    for (int i = 0; i < RANDOM; i++) {
        memcpy(torn, before->bytes, before->size);
        for (size_t at = from; at < from + whole; at += SECTOR)
            if (rand() % 2) memcpy(torn + at, after->bytes + at, SECTOR);
        leave("kept", torn, before->size);
        holds(was, is, !memcmp(torn, after->bytes, before->size), (size_t)i);
    }
    free(torn);
}

static void try_slots(void) {
    static const size_t sizes[] = {30, 300, 299, 7, 5000, 64, 20000, 1, 1, 300, 64, 300};
    struct slots slots = {.store = &folder, .file = -1};
    struct image was = {filled(10, 0), 10};
    must(slots_write(&slots, was.bytes, was.size) == 0, "the first slot", 0);
    for (int i = 0; i < (int)(sizeof sizes / sizeof *sizes); i++) {
        struct image is = {filled(sizes[i], i + 1), sizes[i]}, before = read_file("kept");
        must(slots_write(&slots, is.bytes, is.size) == 0, "a slot", is.size);
        struct image after = read_file("kept");
        must(before.size == after.size, "the file is another one", is.size);
        tear_slot(&before, &after, (slots.number - 1) % 2 * slots.room, &was, &is);
        leave("kept", after.bytes, after.size);
        free(before.bytes);
        free(after.bytes);
        free(was.bytes);
        was = is;
    }
    struct image large = {filled(200000, 77), 200000};
    must(slots_write(&slots, large.bytes, large.size) == 0, "a large slot", large.size);
    slots_close(&slots);
    holds(&was, &large, true, large.size);
    free(large.bytes);
    free(was.bytes);
}

/* What a log holds, as bytes: the store, the changes, and the outputs that nobody has taken. */
static struct bytes log_holds(void) {
    static struct outputs outputs;
    struct gateway_store store;
    struct bytes whole = {0}, changes = {0}, all = {0};
    memset(&outputs, 0, sizeof outputs);
    must(gateway_store_open(&store, &folder, &whole, &changes, &outputs) == 0, "the log can't be opened", 0);
    bytes_add(&all, &whole.size, sizeof whole.size);
    bytes_add(&all, whole.at, whole.size);
    bytes_add(&all, &changes.size, sizeof changes.size);
    bytes_add(&all, changes.at, changes.size);
    for (size_t i = 0; i < outputs.count; i++) {
        bytes_add(&all, &outputs.all[i].ssn, sizeof outputs.all[i].ssn);
        bytes_add(&all, outputs.all[i].payload, outputs.all[i].size);
    }
    bytes_end(&whole);
    bytes_end(&changes);
    free(outputs.places);
    gateway_store_rest(&store);
    gateway_store_close(&store);
    return all;
}

static void is_log(const struct bytes *right, const char *what, size_t at) {
    struct bytes all = log_holds();
    must(all.size == right->size && !memcmp(all.at, right->at, all.size), what, at);
    bytes_end(&all);
}

static const char *const NAMES[2] = {"gateway.0", "gateway.1"};

/* Where two files begin to differ, and where they end to. */
static void difference(const struct image *before, const struct image *after, size_t *from, size_t *to) {
    *from = 0, *to = after->size;
    while (*from < after->size && *from < before->size && before->bytes[*from] == after->bytes[*from]) ++*from;
    while (*to > *from && (*to > before->size ? after->bytes[*to - 1] == 0 : before->bytes[*to - 1] == after->bytes[*to - 1])) --*to;
}

/* What a call wrote into a file is cut off, head last: the log is the one before until all of it is there. */
static void tear_log(int which, const struct image *before, const struct image *after, const struct bytes *was, const struct bytes *is) {
    size_t from, to, room = after->size;
    difference(before, after, &from, &to);
    size_t first = from < BLOCK ? BLOCK : from;
    uint8_t *torn = calloc(1, room);
    if (before->bytes) memcpy(torn, before->bytes, before->size);
    for (size_t cut = first; cut <= to; cut += cut > first + 40 && cut + 20 < to ? 7 : 1) {
        memcpy(torn + first, after->bytes + first, cut - first);
        leave(NAMES[which], torn, room);
        is_log(from >= BLOCK && cut == to ? is : was, "a log that was cut off", cut);
    }
    for (size_t cut = 0; from < BLOCK && cut <= LOG_HEAD; cut++) {
        memcpy(torn, after->bytes, cut);
        leave(NAMES[which], torn, room);
        is_log(memcmp(torn, after->bytes, LOG_HEAD) ? was : is, "a head that was cut off", cut);
    }
    free(torn);
}

/* Some outputs more are handed out, and are durable at once. */
static void hand_out(struct outputs *outputs, int count) {
    static uint64_t ssn;
    for (int i = 0; i < count; i++) {
        struct output *output = outputs_place(outputs);
        *output = (struct output){.process = 1, .ssn = ++ssn, .size = (size_t)(ssn * 37 % 257)};
        memset(output->payload, (int)ssn, output->size);
        outputs_add(outputs);
    }
}

/* One call on the log, the n-th. */
static void call(struct gateway_store *store, struct outputs *outputs, int n) {
    uint8_t *bytes = filled((size_t)(n * 53 % 400), n);
    hand_out(outputs, n % 4);
    if (n % 3 == 0 && outputs->stored > 1) outputs_take(outputs, 1, outputs->all[outputs->stored / 2].ssn);
    if (n % 7 == 0) outputs_forget(outputs);
    int status = n % 7 ? gateway_store_append(store, bytes, (size_t)(n * 53 % 400), outputs, n % 2)
                       : gateway_store_replace(store, bytes, (size_t)(n * 53 % 400), outputs);
    must(status == 0, "a call on the log", (size_t)n);
    outputs->written = outputs->count;
    outputs_are_stored(outputs, outputs->count - outputs->stored);
    outputs_forget(outputs);
    free(bytes);
}

static void try_log(void) {
    static struct outputs outputs;
    struct gateway_store store;
    struct bytes whole = {0}, changes = {0};
    must(gateway_store_open(&store, &folder, &whole, &changes, &outputs) == 0 && !whole.at, "a new log", 0);
    must(gateway_store_replace(&store, (const uint8_t *)"first", 5, &outputs) == 0, "a first store", 0);
    for (int n = 1; n <= 23; n++) {
        int which = (int)((store.generation + (n % 7 == 0)) % 2);
        struct image before = read_file(NAMES[which]);
        struct bytes was = log_holds();
        call(&store, &outputs, n);
        struct image after = read_file(NAMES[which]);
        struct bytes is = log_holds();
        tear_log(which, &before, &after, &was, &is);
        leave(NAMES[which], after.bytes, after.size);
        is_log(&is, "a log", (size_t)n);
        free(before.bytes);
        free(after.bytes);
        bytes_end(&was);
        bytes_end(&is);
    }
    gateway_store_rest(&store);
    gateway_store_close(&store);
}

/* A record that is missing ends the log, though those after it are there. */
static void try_gaps(void) {
    static struct outputs outputs;
    struct gateway_store store;
    struct bytes whole = {0}, changes = {0}, right[8] = {{0}};
    uint64_t at[8];
    must(gateway_store_open(&store, &folder, &whole, &changes, &outputs) == 0, "a log", 0);
    must(gateway_store_replace(&store, (const uint8_t *)"again", 5, &outputs) == 0, "a store", 0);
    for (int i = 0; i < 8; i++) {
        at[i] = store.at;
        right[i] = log_holds();
        must(gateway_store_append(&store, (const uint8_t *)"changes", 7, &outputs, true) == 0, "a record", (size_t)i);
    }
    struct image all = read_file(NAMES[store.generation % 2]);
    for (int i = 0; i < 8; i++) {
        uint8_t kept = all.bytes[at[i] + 9];
        all.bytes[at[i] + 9] ^= 1;
        leave(NAMES[store.generation % 2], all.bytes, all.size);
        is_log(&right[i], "a log with a gap", (size_t)i);
        all.bytes[at[i] + 9] = kept;
        bytes_end(&right[i]);
    }
    free(all.bytes);
    bytes_end(&whole);
    bytes_end(&changes);
    gateway_store_rest(&store);
    gateway_store_close(&store);
}

int main(int argc, char **argv) {
    if (argc != 2) return 2;
    folder = (struct store){.storage = &folder_storage, .path = argv[1], .folder = open(argv[1], O_RDONLY | O_DIRECTORY), .lock = -1};
    must(folder.folder >= 0, argv[1], 0);
    try_slots();
    try_log();
    try_gaps();
    printf("%ld times as it has to be\n", tried);
    return 0;
}
