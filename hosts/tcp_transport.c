/* Streams, by tls or not: who sends connects, and each frame comes after its length. */
#include "bytes.h"
#include "tcp_address.h"
#include "tls.h"
#include "transport.h"

#include <errno.h>
#include <stdlib.h>
#include <string.h>
#include <sys/socket.h>
#include <unistd.h>

/* Microseconds until a connection is tried again, and that a guest has for a frame; bytes that a guest may be ahead; frames of one
   call. */
enum { AGAIN = 20000, PATIENCE = 10000000, ROOM = 2 * (FRAME_LENGTH + FRAME_LIMIT), PARTS = 16 };

static int tcp_open(struct transport *transport, const struct address *own) { return address_listen(own, &transport->file); }

static void guest_leaves(struct guest *guest) {
    tls_end(guest->tls);
    close(guest->file);
    free(guest->bytes);
    *guest = (struct guest){.file = -1, .peer = -1};
}

/* A place that is free, or that of whoever has waited longest without a whole packet: each peer has one place at most, so there is
   one. */
static struct guest *place(struct transport *transport) {
    struct guest *first = NULL;
    for (struct guest *guest = transport->guests; guest < transport->guests + TCP_GUESTS; guest++) {
        if (guest->file < 0) return guest;
        if (guest->peer < 0 && (!first || guest->since < first->since)) first = guest;
    }
    if (first) guest_leaves(first);
    return first;
}

static void welcome(struct transport *transport) {
    bool is_sealed = transport->cluster->processes[transport->me].address.carrier == CARRIER_TLS;
    int file;
    while ((file = accept4(transport->file, NULL, NULL, SOCK_NONBLOCK | SOCK_CLOEXEC)) >= 0) {
        struct guest *guest = place(transport);
        uint8_t *bytes = guest ? malloc(ROOM) : NULL;
        struct tls *tls = bytes && is_sealed ? tls_accept(file, TLS_PROCESSES) : NULL;
        if (!bytes || (is_sealed && !tls)) {
            free(bytes);
            close(file);
            continue;
        }
        tcp_keep_alive(file);
        *guest = (struct guest){.file = file, .tls = tls, .peer = -1, .since = clock_now(), .bytes = bytes};
    }
}

/* Those go that have sent no bundle for a while, or are long in the midst of a frame. */
static void send_away(struct transport *transport) {
    uint64_t now = clock_now();
    for (struct guest *guest = transport->guests; guest < transport->guests + TCP_GUESTS; guest++) {
        bool is_waited_for = guest->file >= 0 && (guest->peer < 0 || guest->have > guest->from);
        if (is_waited_for && now - guest->since >= PATIENCE) guest_leaves(guest);
    }
}

/* A peer's new connection takes the place of its old one. */
static void tcp_settle(struct transport *transport, int peer) {
    struct guest *guest = &transport->guests[transport->guest];
    if (guest->peer == peer) return;
    for (struct guest *other = transport->guests; other < transport->guests + TCP_GUESTS; other++)
        if (other != guest && other->file >= 0 && other->peer == peer) guest_leaves(other);
    guest->peer = peer;
}

/* Reads what there is; false where there is no more for now. */
static bool guest_reads(struct guest *guest) {
    if (guest->is_dry) return false;
    guest->have -= guest->from;
    if (guest->from > 0) memmove(guest->bytes, guest->bytes + guest->from, guest->have);
    guest->from = 0;
    size_t room = ROOM - guest->have;
    uint8_t *at = guest->bytes + guest->have;
    ssize_t count = guest->tls ? tls_receive(guest->tls, at, room) : recv(guest->file, at, room, 0);
    if (count > 0 && guest->have == 0) guest->since = clock_now();
    if (count > 0) guest->have += (size_t)count;
    if (count == 0 || (count < 0 && errno != EAGAIN && errno != EINTR)) guest_leaves(guest);
    else guest->is_dry = count < (ssize_t)room;
    return count > 0;
}

/* The guest's next frame, if it is there whole. One whose length is none is sent away. */
static size_t guest_frame(struct guest *guest, const uint8_t **frame) {
    while (guest->file >= 0) {
        const uint8_t *at = guest->bytes + guest->from;
        size_t have = guest->have - guest->from, size = have < FRAME_LENGTH ? 1 : number_at(at, FRAME_LENGTH);
        if (size == 0 || size > FRAME_LIMIT) {
            guest_leaves(guest);
        } else if (have >= FRAME_LENGTH + size) {
            *frame = at + FRAME_LENGTH;
            guest->from += FRAME_LENGTH + size;
            if (guest->from < guest->have) guest->since = clock_now();
            return size;
        } else if (!guest_reads(guest)) {
            return 0;
        }
    }
    return 0;
}

/* Each guest in its turn, all that came of it. */
static size_t tcp_receive(struct transport *transport, const uint8_t **frame) {
    if (!transport->is_dry) welcome(transport);
    transport->is_dry = true;
    for (int i = 0; i < TCP_GUESTS; i++) {
        struct guest *guest = &transport->guests[transport->guest];
        size_t size = guest_frame(guest, frame);
        if (guest->tls) transport->speakers = tls_names(guest->tls);
        if (size > 0) return size;
        transport->guest = (transport->guest + 1) % TCP_GUESTS;
    }
    send_away(transport);
    return 0;
}

/* When the program has waited, more may be there. */
static void tcp_watch(struct transport *transport, struct watch *watch) {
    transport->is_dry = false;
    watch_file(watch, transport->file, POLLIN);
    for (int i = 0; i < TCP_GUESTS; i++) {
        transport->guests[i].is_dry = false;
        watch_file(watch, transport->guests[i].file, transport->guests[i].tls ? tls_awaits(transport->guests[i].tls) : POLLIN);
    }
}

/* By tls some may be there that was read from its file before. */
static void tcp_learn(struct transport *transport, const struct watch *watch) {
    transport->is_dry = !watch_tells(watch, transport->file);
    for (struct guest *guest = transport->guests; guest < transport->guests + TCP_GUESTS; guest++)
        guest->is_dry = guest->file >= 0 && !guest->tls && !watch_tells(watch, guest->file);
}

const struct inlet tcp_inlet = {tcp_open, tcp_receive, tcp_watch, tcp_learn, tcp_settle};

void tcp_renew(struct transport *transport) {
    for (struct guest *guest = transport->guests; guest < transport->guests + TCP_GUESTS; guest++)
        if (guest->tls) guest_leaves(guest);
}

/* A connection by tls is one when both sides have shown who they are; false where that is refused. */
static bool shakes(struct way *way) {
    int shaken = tls_shake(way->tls);
    way->connecting = shaken == 0;
    way->wants = shaken == 0 ? tls_awaits(way->tls) : POLLOUT;
    return shaken >= 0;
}

static bool is_connected(struct transport *transport, struct way *way) {
    way->connecting = false;
    if (way->address->carrier != CARRIER_TLS) return true;
    way->tls = tls_connect(way->file, (int)(way - transport->ways));
    return way->tls && shakes(way);
}

/* Begins a connection, or looks how the one that was begun goes on; false where the peer is away. */
static bool connects(struct transport *transport, struct way *way) {
    if (way->file >= 0) {
        int fault = 0;
        socklen_t size = sizeof fault;
        struct pollfd state = {.fd = way->file, .events = POLLOUT};
        if (way->connecting && way->tls) return shakes(way);
        if (!way->connecting || poll(&state, 1, 0) == 0) return true;
        getsockopt(way->file, SOL_SOCKET, SO_ERROR, &fault, &size);
        return fault == 0 && is_connected(transport, way);
    }
    struct addrinfo *found = tcp_resolve(way->address->where, 0);
    if (!found) return false;
    way->file = socket(found->ai_family, SOCK_STREAM | SOCK_NONBLOCK | SOCK_CLOEXEC, 0);
    if (way->file >= 0) tcp_keep_alive(way->file);
    bool begun = way->file >= 0 && connect(way->file, found->ai_addr, found->ai_addrlen) == 0;
    way->connecting = !begun && errno == EINPROGRESS;
    freeaddrinfo(found);
    return begun ? is_connected(transport, way) : way->connecting;
}

/* Nothing comes back on a way; its end does. */
static bool is_over(const struct way *way) {
    char byte;
    ssize_t count = way->tls ? tls_receive(way->tls, &byte, 1) : recv(way->file, &byte, 1, MSG_PEEK);
    return count == 0 || (count < 0 && errno != EAGAIN && errno != EINTR);
}

/* The frames that went whole go from the queue; the next one was cut off after so many bytes. */
static void went(struct way *way, size_t count) {
    count += way->sent;
    while (way->first && count >= way->first->size) {
        count -= way->first->size;
        way_drop(way);
    }
    way->sent = count;
}

/* Sends the frames that wait, from where the first was cut off, as many as one call takes; false where the way is over. */
static bool send_some(struct way *way, bool *is_busy) {
    struct iovec parts[PARTS];
    size_t count = 0, all = 0;
    for (struct frame *frame = way->first; frame && count < PARTS; frame = frame->next, count++) {
        size_t from = frame == way->first ? way->sent : 0;
        parts[count] = (struct iovec){.iov_base = frame->bytes + from, .iov_len = frame->size - from};
        all += frame->size - from;
    }
    struct msghdr message = {.msg_iov = parts, .msg_iovlen = count};
    ssize_t sent = sendmsg(way->file, &message, MSG_NOSIGNAL);
    *is_busy = sent < (ssize_t)all;
    if (sent < 0) return errno == EAGAIN || errno == EINTR;
    went(way, (size_t)sent);
    return true;
}

/* The same by tls, of the first frame. */
static bool send_sealed(struct way *way, bool *is_busy) {
    ssize_t sent = tls_send(way->tls, way->first->bytes + way->sent, way->first->size - way->sent);
    way->is_begun = *is_busy = sent < 0;
    way->wants = sent < 0 ? tls_awaits(way->tls) : POLLOUT;
    if (sent < 0) return errno == EAGAIN;
    went(way, (size_t)sent);
    return true;
}

void tcp_serve(struct transport *transport, struct way *way) {
    bool is_busy = false;
    if (way_waits(transport, way)) return;
    bool is_there = connects(transport, way);
    if (is_there && way->connecting) return;
    is_there = is_there && (way->sent > 0 || !is_over(way));
    while (is_there && way->first && !is_busy) is_there = way->tls ? send_sealed(way, &is_busy) : send_some(way, &is_busy);
    if (!is_there) way_ends(transport, way, AGAIN);
}
