/* Numbers of 16 bytes that are drawn, so that no two are the same: of a cluster, and of a store. */
#ifndef ID_H
#define ID_H

#include "numbers.h"

#include <stdbool.h>
#include <stdint.h>

enum { ID_BYTES = 16, ID_TEXT = 33 };

/* Zeros are none. */
struct id {
    uint8_t bytes[ID_BYTES];
};

/* Which cluster a store is of, none if the gateway hasn't told yet; and the ids of stores: a process knows its own, the gateway that
   of each process that it has welcomed, and which numbers were given before its cluster began. */
struct ids {
    struct id cluster, stores[PROCESS_LIMIT + 1];
    struct numbers before;
};

/* Draws one; a status, and why is reported. */
int id_draw(struct id *id);

bool id_is_none(const struct id *id);
bool id_is(const struct id *one, const struct id *other);

/* In hexadecimal digits, ended by a zero; and back. */
void id_text(const struct id *id, char text[ID_TEXT]);
bool id_read(const char *text, struct id *id);

#endif
