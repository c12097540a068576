/* How a process with a new store becomes one of its cluster, so that none is listened to whose store was lost, and no packet of
   another cluster is taken (docs/CLUSTER.md, "Which cluster"). */
#ifndef MEMBERSHIP_H
#define MEMBERSHIP_H

#include "figures.h"
#include "options.h"
#include "store.h"
#include "transport.h"

/* Of a process: says hello until the gateway welcomes it or a signal ends it, and stores of which cluster it is. STATUS_STORE where
   the cluster has heard of this process with another store. */
int membership_join(const struct options *options, const struct owner *owner, const struct store *store, struct ids *ids,
                    struct transport *transport, struct metrics *metrics);

/* Of the gateway: answers the greetings that came. The id of a store that it welcomes is durable first. */
int membership_welcome(const struct owner *owner, const struct store *store, struct ids *ids, struct transport *transport);

#endif
