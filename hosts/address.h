/* An address, as the cluster file and the command line write it, and the socket that is taken there. */
#ifndef ADDRESS_H
#define ADDRESS_H

#include <stdbool.h>

enum carrier { CARRIER_UNIX, CARRIER_TCP, CARRIER_TLS, CARRIER_NATS };

struct address {
    enum carrier carrier;
    char *where; /* what stands behind the carrier: PATH, HOST:PORT or URL; null for no address */
};

/* Reads a word; why it isn't taken, null where it is. */
const char *address_read(const char *word, struct address *address);

/* A socket that others connect to: at a path or a port. -1, and why is reported. No address has none, and is taken. */
int address_listen(const struct address *address, int *file);

/* Whether a socket of this type could be taken: nothing changes. A status, and why not is reported. */
int address_look(const struct address *address, int type);

/* The socket goes, and the path that it had. */
void address_leave(const struct address *address, int file);

#endif
