/* How long the server of a store is waited for, and what is told of it meanwhile. */
#ifndef PATIENCE_H
#define PATIENCE_H

#include <stdbool.h>
#include <stdint.h>

struct patience {
    const char *path;              /* of the store */
    uint64_t since, until, looked; /* microseconds of the clock: its begin, its end, and the last look at it */
    bool has_told, has_stood;
};

void patience_begin(struct patience *patience, const char *path);

/* Whether it lasts. It tells that the server is silent, once that is so for a second. Time in which this program stood still doesn't
   count: so look at it every few seconds. */
bool patience_lasts(struct patience *patience);

/* Whether the server may be asked again; a moment passes before. */
bool patience_waits(struct patience *patience);

/* The server has answered: so it tells, if it told that it was silent. */
void patience_ends(const struct patience *patience);

#endif
