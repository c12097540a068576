/* A gateway whose cluster goes on where another one ended, with that one's numbers and the outputs that nobody took there
   (docs/CLUSTER.md, "Upgrade"). */
#ifndef SUCCESSION_H
#define SUCCESSION_H

#include "gateway_state.h"

/* Takes numbers and outputs over from the store that --after names, if nothing is under way there. From then on that store is of no use
   to its own gateway, unless this one only looks; a status, and why is reported. */
int succession_take(struct gateway_host *host);

/* Whether no other cluster goes on where this store's ended; a status, and why is reported. */
int succession_refuses(const struct store *store);

#endif
