/* Numbers as bytes, the lowest first, and bytes in memory of their own. */
#ifndef BYTES_H
#define BYTES_H

#include <stdbool.h>
#include <stddef.h>
#include <stdint.h>

uint64_t number_at(const uint8_t *at, int size);
void number_put(uint8_t *at, uint64_t number, int size);

/* Makes room for so many bytes; false without memory, and nothing changes. */
bool bytes_fit(uint8_t **at, size_t *room, size_t size);

struct bytes {
    uint8_t *at;
    size_t size, room;
};

/* Puts more at the end; false without memory, and nothing changes. */
bool bytes_add(struct bytes *bytes, const void *more, size_t size);

/* Gives the memory back. */
void bytes_end(struct bytes *bytes);

#endif
