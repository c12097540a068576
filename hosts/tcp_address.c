#include "tcp_address.h"

#include "report.h"

#include <netinet/in.h>
#include <netinet/tcp.h>
#include <stdbool.h>
#include <string.h>
#include <sys/socket.h>
#include <unistd.h>

/* Seconds after which a silent connection is tried, and between tries; how many get no answer before it is over; milliseconds
   after which a peer is given up that doesn't say that it has what was sent. */
enum { TRIED_AFTER = 5, TRIED_EVERY = 1, TRIES = 5, SILENCE = 5000 };

struct addrinfo *tcp_resolve(const char *where, int flags) {
    char host[256];
    const char *colon = strrchr(where, ':'), *begin = where;
    size_t size = (size_t)(colon - where);
    if (size >= 2 && *begin == '[' && begin[size - 1] == ']') {
        begin++;
        size -= 2;
    }
    if (size >= sizeof host) return NULL;
    memcpy(host, begin, size);
    host[size] = 0;
    struct addrinfo hints = {.ai_flags = flags, .ai_socktype = SOCK_STREAM}, *found = NULL;
    return getaddrinfo(host, colon + 1, &hints, &found) == 0 ? found : NULL;
}

int tcp_take(const char *where) {
    struct addrinfo *found = tcp_resolve(where, AI_PASSIVE);
    int on = 1;
    if (!found) {
        report("tcp:%s: there is no such host", where);
        return -1;
    }
    int file = socket(found->ai_family, SOCK_STREAM | SOCK_NONBLOCK | SOCK_CLOEXEC, 0);
    if (file >= 0) setsockopt(file, SOL_SOCKET, SO_REUSEADDR, &on, sizeof on);
    bool is_taken = file >= 0 && bind(file, found->ai_addr, found->ai_addrlen) == 0;
    if (!is_taken) report_fault("tcp:%s", where);
    freeaddrinfo(found);
    if (is_taken) return file;
    if (file >= 0) close(file);
    return -1;
}

void tcp_keep_alive(int file) {
    int on = 1, after = TRIED_AFTER, every = TRIED_EVERY, tries = TRIES;
    unsigned silence = SILENCE;
    setsockopt(file, IPPROTO_TCP, TCP_NODELAY, &on, sizeof on);
    setsockopt(file, SOL_SOCKET, SO_KEEPALIVE, &on, sizeof on);
    setsockopt(file, IPPROTO_TCP, TCP_KEEPIDLE, &after, sizeof after);
    setsockopt(file, IPPROTO_TCP, TCP_KEEPINTVL, &every, sizeof every);
    setsockopt(file, IPPROTO_TCP, TCP_KEEPCNT, &tries, sizeof tries);
    setsockopt(file, IPPROTO_TCP, TCP_USER_TIMEOUT, &silence, sizeof silence);
}
