/* A gateway as its host has it, and all that it is carried by. */
#ifndef GATEWAY_STATE_H
#define GATEWAY_STATE_H

#include "answers.h"
#include "changes.h"
#include "clients.h"
#include "figures.h"
#include "gateway_store.h"
#include "options.h"
#include "outputs.h"
#include "pace.h"
#include "store.h"
#include "transport.h"
#include "turns.h"

#include <sblog.h>

struct gateway_host {
    const struct options *options;
    const struct cluster *cluster;
    struct store folder;
    struct ids ids;
    struct gateway_store store;
    struct transport transport;
    struct pace pace;
    struct metrics metrics;
    sblog_gateway gateway;
    struct counts counts;
    struct clients clients;
    struct answers answers;
    struct outputs waiting;
    struct bytes heard; /* what bundles of this turn tell the pace */
    struct turns turns;
    struct watch watch; /* as it was waited for last */
    size_t came;        /* packets and answers of this turn */
    bool has_tick; /* whether the packets of one wait */
    uint8_t *bytes;
    size_t room;
    uint64_t last[PROCESS_LIMIT + 1]; /* the SSN of each process's last input */
    uint64_t faulty, outputs;
    uint8_t packets[PACKET_LIMIT];
};

struct owner gateway_owner(const struct gateway_host *host);

/* Takes all that a life needs, and begins it; a status. */
int gateway_begin(struct gateway_host *host);

/* Whether that would do: nothing is taken or written. The status that it would have, and a line a fault. */
int gateway_look(struct gateway_host *host);

/* Bytes of the gateway, of whatever size: its store, or its changes. A code of the library. */
uint32_t gateway_bytes(struct gateway_host *host, uint32_t (*call)(sblog_gateway *, uint8_t *, size_t, size_t *), size_t *size);

/* The store is written whole, and what changed is in it. */
int gateway_write_whole(struct gateway_host *host);

/* Figures are shown to who asks for them. */
void gateway_show(struct gateway_host *host);

#endif
