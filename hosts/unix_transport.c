/* Datagram sockets of this machine: one a process, at its path, and one connected to each peer. A socket's queue has only ten
   datagrams on many machines: so packets go many in one. */
#include "report.h"
#include "transport.h"
#include "unix_path.h"

#include <errno.h>
#include <sys/socket.h>
#include <unistd.h>

enum { AGAIN = 5000, BUFFER = 1 << 20 }; /* microseconds until a peer that is away is tried again; bytes of a socket's buffer */

static int new_socket(void) {
    int file = socket(AF_UNIX, SOCK_DGRAM | SOCK_NONBLOCK | SOCK_CLOEXEC, 0), size = BUFFER;
    if (file >= 0) setsockopt(file, SOL_SOCKET, SO_SNDBUF, &size, sizeof size);
    return file;
}

static int unix_open(struct transport *transport, const struct address *own) {
    transport->file = unix_path_take(SOCK_DGRAM, own->where);
    return transport->file < 0 ? STATUS_IO : STATUS_DONE;
}

const struct inlet unix_inlet = {unix_open, datagram_receive, datagram_watch, datagram_learn, NULL};

static bool is_connected(struct way *way) {
    struct sockaddr_un path = unix_path(way->address->where);
    if (way->file >= 0) return true;
    way->file = new_socket();
    return way->file >= 0 && connect(way->file, (const struct sockaddr *)&path, sizeof path) == 0;
}

/* Sends the first frame that waits; false where there is none there that takes it. */
static bool send_first(struct transport *transport, struct way *way) {
    size_t size;
    const uint8_t *frame = way_first(way, &size);
    if (send(way->file, frame, size, MSG_NOSIGNAL) < 0) {
        if (errno != EMSGSIZE && errno != ENOBUFS) return false;
        transport->lost += (uint64_t)way->first->count;
    }
    way_drop(way);
    return true;
}

void unix_serve(struct transport *transport, struct way *way) {
    bool is_fresh = way->file < 0; /* else it may be of a life that is over, and there a new one */
    if (way_waits(transport, way)) return;
    while (way->first) {
        if (!is_connected(way)) {
            way_ends(transport, way, AGAIN);
        } else if (!send_first(transport, way)) {
            if (errno == EAGAIN || errno == EINTR) return;
            if (is_fresh) {
                way_ends(transport, way, AGAIN);
                return;
            }
            close(way->file);
            way->file = -1;
            is_fresh = true;
        }
    }
}
