/* The bytes of a node's checkpoint in the file `kept`: two slots, which are written in turn, so that one of them holds the last
   bytes that were durable (docs/FORMATS.md, "Slots"). The file was written whole when it was made, so a sync has no more to write
   than the bytes. Elsewhere than in a folder there is one slot. */
#ifndef SLOTS_H
#define SLOTS_H

#include "store.h"

#include <stddef.h>
#include <stdint.h>

struct slots {
    const struct store *store;
    int file;        /* -1: none */
    size_t room;     /* of a slot, with its head */
    uint64_t number; /* of the next write, which goes to slot number % 2 */
};

/* The last bytes that are whole, to be freed, which are durable then; null if there is no file. A status, and why is reported. */
int slots_open(struct slots *slots, const struct store *store, uint8_t **bytes, size_t *size);

/* They are durable when it answers. A status, and why is reported. */
int slots_write(struct slots *slots, const uint8_t *bytes, size_t size);

void slots_close(struct slots *slots);

#endif
