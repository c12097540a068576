/* A node that is suspended at its end, and resumed at the next start: its bytes, behind the id of its store, are the file `suspended`,
   which is empty once they were taken (docs/FORMATS.md, "Suspended node"). */
#ifndef SUSPENSION_H
#define SUSPENSION_H

#include "node_state.h"

static const char SUSPENDED[] = "suspended";

/* Suspends the node, whose durable checkpoint covers all; its bytes are durable when this answers. If the node can't be suspended, that
   is told. A status. */
int suspension_write(struct node_host *host);

/* Takes the bytes, once and for good, and resumes the node from them. They have to be of the store's last life, of this incarnation, and
   of its last checkpoint; else why it isn't resumed is told. A status. */
int suspension_take(struct node_host *host, uint64_t incarnation, const uint8_t *kept, size_t size, bool *is_resumed);

#endif
