#include "address.h"

#include "report.h"
#include "tcp_address.h"
#include "unix_path.h"

#include <ctype.h>
#include <stdlib.h>
#include <string.h>
#include <sys/socket.h>
#include <sys/un.h>
#include <unistd.h>

enum { WAITING = 64 };

static const char *const CARRIERS[] = {"unix:", "tcp:", "tls:", "nats:"};
enum { CARRIER_COUNT = sizeof CARRIERS / sizeof *CARRIERS };

static bool is_host_and_port(const char *where) {
    const char *colon = strrchr(where, ':');
    if (!colon || colon == where || !colon[1] || strlen(colon + 1) > 5) return false;
    for (const char *at = colon + 1; *at; at++)
        if (!isdigit((unsigned char)*at)) return false;
    int port = atoi(colon + 1);
    return port >= 1 && port <= 65535;
}

const char *address_read(const char *word, struct address *address) {
    for (int carrier = 0; carrier < CARRIER_COUNT; carrier++) {
        size_t size = strlen(CARRIERS[carrier]);
        if (strncmp(word, CARRIERS[carrier], size) != 0) continue;
        const char *where = word + size;
        if (!*where) return "nothing stands behind the colon";
        if (carrier == CARRIER_UNIX && strlen(where) >= sizeof((struct sockaddr_un *)0)->sun_path)
            return "the path of a socket has at most 107 bytes";
        if (carrier == CARRIER_TCP && !is_host_and_port(where)) return "an address of tcp is tcp:HOST:PORT";
        if (carrier == CARRIER_TLS && !is_host_and_port(where)) return "an address of tls is tls:HOST:PORT";
        *address = (struct address){.carrier = (enum carrier)carrier, .where = strdup(where)};
        return address->where ? NULL : "there is no memory";
    }
    return "an address begins with unix:, tcp:, tls: or nats:";
}

int address_listen(const struct address *address, int *file) {
    *file = -1;
    if (!address->where) return STATUS_DONE;
    *file = address->carrier == CARRIER_UNIX ? unix_path_take(SOCK_STREAM, address->where) : tcp_take(address->where);
    if (*file < 0) return STATUS_IO;
    if (listen(*file, WAITING) == 0) return STATUS_DONE;
    report_fault("%s", address->where);
    return STATUS_IO;
}

int address_look(const struct address *address, int type) {
    if (!address->where || address->carrier == CARRIER_NATS) return STATUS_DONE;
    if (address->carrier == CARRIER_UNIX) return unix_path_look(type, address->where) ? STATUS_DONE : STATUS_IO;
    int file = tcp_take(address->where);
    if (file >= 0) close(file);
    return file < 0 ? STATUS_IO : STATUS_DONE;
}

void address_leave(const struct address *address, int file) {
    if (file < 0) return;
    close(file);
    if (address->carrier == CARRIER_UNIX) unlink(address->where);
}
