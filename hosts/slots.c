#include "slots.h"

#include "bytes.h"
#include "checksum.h"
#include "report.h"

#include <errno.h>
#include <fcntl.h>
#include <stdbool.h>
#include <stdlib.h>
#include <string.h>
#include <sys/uio.h>
#include <unistd.h>

enum { LEAST = 1 << 18 }; /* bytes of a slot */

static const char *const KEPT = "kept", MAGIC[] = "SBS2";

/* A slot's head: MAGIC, the checksum of all after it, the number of the write, how many bytes follow. */
enum { CHECKSUM = 4, NUMBER = 8, SIZE = 16, HEAD = 24, WORD = 8, HALF = 4 };

/* Kept bytes end with their own checksum, and one over them with that is the same for all of their length. So their last bytes count
   twice: a new head before old bytes isn't right. */
static uint32_t checksum_of(const uint8_t *head, const uint8_t *bytes, size_t size) {
    size_t last = size < HALF ? size : HALF;
    return checksum(checksum(checksum(0, head + NUMBER, HEAD - NUMBER), bytes, size), bytes + size - last, last);
}

static void write_head(uint8_t *head, uint64_t number, const uint8_t *bytes, size_t size) {
    memcpy(head, MAGIC, CHECKSUM);
    number_put(head + NUMBER, number, WORD);
    number_put(head + SIZE, size, WORD);
    number_put(head + CHECKSUM, checksum_of(head, bytes, size), HALF);
}

/* How many bytes a slot holds that were written whole; 0 if it holds no such bytes. */
static size_t whole_in(const uint8_t *slot, size_t room) {
    if (room < HEAD || memcmp(slot, MAGIC, CHECKSUM) != 0) return 0;
    uint64_t size = number_at(slot + SIZE, WORD);
    if (size > room - HEAD) return 0;
    return number_at(slot + CHECKSUM, HALF) == checksum_of(slot, slot + HEAD, size) ? size : 0;
}

static int failed(const struct slots *slots) {
    report_fault("%s/%s can't be written", slots->store->path, KEPT);
    return STATUS_IO;
}

/* A new file, whose slots have room, takes the old one's place. */
static int begin_file(struct slots *slots, const uint8_t *bytes, size_t size) {
    size_t room = LEAST;
    while (room < 2 * (HEAD + size)) room *= 2;
    uint8_t *all = calloc(2, room);
    if (!all) return store_lacks_memory(slots->store);
    uint8_t *slot = all + slots->number % 2 * room;
    write_head(slot, slots->number, bytes, size);
    memcpy(slot + HEAD, bytes, size);
    int status = store_write(slots->store, KEPT, all, 2 * room);
    free(all);
    if (status != STATUS_DONE) return status;
    slots_close(slots);
    slots->file = openat(slots->store->folder, KEPT, O_RDWR | O_CLOEXEC);
    slots->room = room;
    slots->number++;
    return slots->file < 0 ? failed(slots) : STATUS_DONE;
}

/* Elsewhere than in a folder there is one slot, which is replaced whole. */
static int replace(struct slots *slots, const uint8_t *bytes, size_t size) {
    struct bytes slot = {0};
    uint8_t head[HEAD];
    write_head(head, slots->number, bytes, size);
    bool has_memory = bytes_add(&slot, head, HEAD) && bytes_add(&slot, bytes, size);
    int status = has_memory ? store_write(slots->store, KEPT, slot.at, slot.size) : store_lacks_memory(slots->store);
    bytes_end(&slot);
    if (status == STATUS_DONE) slots->number++;
    return status;
}

/* Writes a slot, head and bytes at once, and waits for the disk. */
static bool write_slot(const struct slots *slots, uint64_t number, const uint8_t *bytes, size_t size) {
    uint8_t head[HEAD];
    write_head(head, number, bytes, size);
    struct iovec parts[2] = {{.iov_base = head, .iov_len = HEAD}, {.iov_base = (void *)bytes, .iov_len = size}};
    errno = 0; /* a write that was cut off tells none */
    ssize_t count = pwritev(slots->file, parts, 2, (off_t)(number % 2 * slots->room));
    return count == (ssize_t)(HEAD + size) && fdatasync(slots->file) == 0;
}

int slots_write(struct slots *slots, const uint8_t *bytes, size_t size) {
    if (slots->store->is_looked_at) return STATUS_DONE;
    if (store_is_remote(slots->store)) return replace(slots, bytes, size);
    if (slots->file < 0 || HEAD + size > slots->room) return begin_file(slots, bytes, size);
    if (!write_slot(slots, slots->number, bytes, size)) return failed(slots);
    slots->number++;
    return STATUS_DONE;
}

int slots_open(struct slots *slots, const struct store *store, uint8_t **bytes, size_t *size) {
    uint8_t *all;
    size_t length;
    *slots = (struct slots){.store = store, .file = -1};
    *bytes = NULL;
    int status = store_read(store, KEPT, &all, &length);
    if (status != STATUS_DONE || !all) return status;
    bool is_rewritten = !store->is_looked_at && !store_is_remote(store);
    size_t room = store_is_remote(store) ? length : length / 2, sizes[2] = {whole_in(all, room), whole_in(all + room, length - room)};
    uint64_t numbers[2] = {sizes[0] ? number_at(all + NUMBER, WORD) : 0, sizes[1] ? number_at(all + room + NUMBER, WORD) : 0};
    int last = !sizes[0] || (sizes[1] && numbers[1] > numbers[0]) ? 1 : 0;
    if (!sizes[last]) {
        report("%s/%s holds no whole checkpoint", store->path, KEPT);
        free(all);
        return STATUS_STORE;
    }
    if (is_rewritten) slots->file = openat(store->folder, KEPT, O_RDWR | O_CLOEXEC);
    slots->room = room;
    slots->number = numbers[last] + 1;
    memmove(all, all + (size_t)last * room + HEAD, sizes[last]);
    /* the life that wrote it may have been killed before it was durable */
    if (is_rewritten && (slots->file < 0 || !write_slot(slots, numbers[last], all, sizes[last]))) {
        free(all);
        return failed(slots);
    }
    *bytes = all;
    *size = sizes[last];
    return STATUS_DONE;
}

void slots_close(struct slots *slots) {
    if (slots->file >= 0) close(slots->file);
    slots->file = -1;
}
