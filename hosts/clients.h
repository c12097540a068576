/* The programs that hand in inputs and take outputs: those that connect, or the one of standard input and output. */
#ifndef CLIENTS_H
#define CLIENTS_H

#include "client.h"
#include "watch.h"

#include <stdbool.h>

enum { CLIENTS_LIMIT = 16 };

struct clients {
    const struct address *address; /* where they connect; none for standard input and output, which is the first one then */
    int listener;
    struct client all[CLIENTS_LIMIT];
};

/* Takes the address; a status, and why is reported. */
int clients_open(struct clients *clients, const struct address *address);

/* Takes in those that connect; what was waited for tells whether some do. */
void clients_welcome(struct clients *clients, const struct watch *watch);

/* The one that takes outputs; null if there is none. */
struct client *clients_consumer(struct clients *clients);

/* Writes what waits; those whose connection is over go. The loss of standard output ends the gateway: a status. */
int clients_serve(struct clients *clients);

/* What is to be waited for: requests, if they may be read, and a consumer that can take more. */
void clients_watch(const struct clients *clients, bool reads, bool prints, struct watch *watch);

/* Whether requests were left that can be taken. */
bool clients_have_requests(const struct clients *clients);

void clients_close(struct clients *clients);

#endif
