/* What the hosts open nodes and gateways with (docs/CLUSTER.md). */
#ifndef LIMITS_H
#define LIMITS_H

/* Bytes of a packet; messages that a tick or a release sends to one peer; numbers that a node may have open; messages that it
   takes after its checkpoint. */
enum { PAGE = 60000, TICK = 256, NUMBERS = 256, RECEIPTS = 65536 };

#endif
