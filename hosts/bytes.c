#include "bytes.h"

#include <stdlib.h>
#include <string.h>

enum { LEAST = 1024 };

uint64_t number_at(const uint8_t *at, int size) {
    uint64_t number = 0;
    for (int i = size - 1; i >= 0; i--) number = number << 8 | at[i];
    return number;
}

void number_put(uint8_t *at, uint64_t number, int size) {
    for (int i = 0; i < size; i++) at[i] = (uint8_t)(number >> 8 * i);
}

bool bytes_fit(uint8_t **at, size_t *room, size_t size) {
    if (size <= *room) return true;
    size_t wider = size + size / 2 + LEAST;
    uint8_t *more = realloc(*at, wider);
    if (!more) return false;
    *at = more;
    *room = wider;
    return true;
}

bool bytes_add(struct bytes *bytes, const void *more, size_t size) {
    if (!bytes_fit(&bytes->at, &bytes->room, bytes->size + size)) return false;
    if (size > 0) memcpy(bytes->at + bytes->size, more, size);
    bytes->size += size;
    return true;
}

void bytes_end(struct bytes *bytes) {
    free(bytes->at);
    *bytes = (struct bytes){0};
}
