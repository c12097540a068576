/* Packets one after another, each after its length, as a bundle has them after its head (docs/FORMATS.md, "Bundle"). */
#ifndef PACKETS_H
#define PACKETS_H

#include <stddef.h>
#include <stdint.h>

/* Bytes of a packet's length; packets that a bundle has at most. */
enum { PACKETS_LENGTH = 2, PACKETS_MOST = (1 << 16) / (PACKETS_LENGTH + 1) };

struct packets {
    const uint8_t *at;
    size_t size;
};

/* Takes the first one; its size, 0 if there is none. */
static inline size_t packets_next(struct packets *packets, const uint8_t **packet) {
    size_t size = packets->size < PACKETS_LENGTH ? 0 : packets->at[0] | (size_t)packets->at[1] << 8;
    if (size == 0 || size > packets->size - PACKETS_LENGTH) return 0;
    *packet = packets->at + PACKETS_LENGTH;
    packets->at += PACKETS_LENGTH + size;
    packets->size -= PACKETS_LENGTH + size;
    return size;
}

#endif
