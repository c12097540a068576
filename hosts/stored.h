/* What a gateway's store has of each process (docs/FORMATS.md, "Store"). */
#ifndef STORED_H
#define STORED_H

#include "bytes.h"
#include "store.h"

#include <stdint.h>

struct stored {
    uint64_t logged, kept, untaken; /* inputs; untaken: kept, and without a number of the process */
    uint64_t shown;        /* outputs */
    uint64_t incarnation;
};

/* The gateway of a whole store and the changes since; a status, and why is reported. */
int stored_revive(const struct store *store, const struct bytes *whole, const struct bytes *changes, sblog_gateway *gateway);

/* The same, and the bytes of a store that has those changes, as the library writes it; to be freed. */
int stored_whole(const struct store *store, const struct bytes *whole, const struct bytes *changes, sblog_gateway *gateway,
                 uint8_t **bytes);

/* Of each process of a store that the library wrote; how many they are. */
int stored_read(const uint8_t *store, struct stored all[PROCESS_LIMIT + 1]);

#endif
