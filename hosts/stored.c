#include "stored.h"

#include "limits.h"
#include "report.h"

#include <stddef.h>
#include <stdlib.h>

/* Places in a store, and bytes of its numbers. */
enum { COUNT = 4, HEAD = 8, PROCESS_SIZE = 17, WORD = 8, HALF = 4, LENGTH = 2 };

int stored_revive(const struct store *store, const struct bytes *whole, const struct bytes *changes, sblog_gateway *gateway) {
    uint32_t fault = 0, code;
    if (!whole->at) {
        report("%s: neither gateway.0 nor gateway.1 holds a whole store", store->path);
        return STATUS_STORE;
    }
    code = sblog_gateway_revive(whole->at, whole->size, PAGE, TICK, gateway, &fault);
    if (code != SBLOG_GATEWAY_DONE) return code_refused("the store", code, fault);
    if (changes->size > 0) code = sblog_gateway_apply(gateway, changes->at, changes->size, &fault);
    return code == SBLOG_GATEWAY_DONE ? STATUS_DONE : code_refused("the changes since the store", code, fault);
}

int stored_whole(const struct store *store, const struct bytes *whole, const struct bytes *changes, sblog_gateway *gateway,
                 uint8_t **bytes) {
    size_t size, room = whole->size + 3 * changes->size + PAGE;
    int status = stored_revive(store, whole, changes, gateway);
    if (status != STATUS_DONE) return status;
    *bytes = malloc(room);
    uint32_t code = *bytes ? sblog_gateway_store(gateway, *bytes, room, &size) : SBLOG_GATEWAY_MEMORY;
    return code == SBLOG_GATEWAY_DONE ? STATUS_DONE : code_refused("the store", code, 0);
}

int stored_read(const uint8_t *store, struct stored all[PROCESS_LIMIT + 1]) {
    int count = store[COUNT];
    const uint8_t *first = store + HEAD, *at = first + count * PROCESS_SIZE;
    for (int p = 1; p <= count; p++, first += PROCESS_SIZE) {
        uint64_t next = number_at(at, WORD), kept = number_at(at + WORD, HALF);
        all[p] = (struct stored){next + kept - 1, kept, 0, number_at(first, WORD), number_at(first + WORD, WORD)};
        for (at += WORD + HALF; kept > 0; kept--) {
            all[p].untaken += number_at(at, WORD) == 0;
            at += WORD + LENGTH + number_at(at + WORD, LENGTH);
        }
    }
    return count;
}
