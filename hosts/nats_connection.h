/* A connection to a NATS server, which comes back by itself. */
#ifndef NATS_CONNECTION_H
#define NATS_CONNECTION_H

#ifdef WITH_NATS

#include <nats/nats.h>

/* To a server, or to one of several, whose addresses have commas between them. The first connection is made in a thread, too:
   NATS_NOT_YET_CONNECTED where the server is away. The address stays the caller's. */
natsStatus nats_connect(natsConnection **connection, const char *url);

/* Servers' addresses after the last name and password. */
const char *nats_shown(const char *url);

#endif

#endif
