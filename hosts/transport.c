#include "transport.h"

#include "options.h"
#include "report.h"
#include "tls.h"

#include <stdlib.h>
#include <string.h>
#include <sys/socket.h>
#include <unistd.h>

/* Microseconds for what still waits at the end; packets that wait for one peer. */
enum { CLOSING = 200000, WAITING_LIMIT = 4096 };

static const struct inlet *const INLETS[] = {&unix_inlet, &tcp_inlet, &tcp_inlet, &nats_inlet};
static void (*const SERVES[])(struct transport *, struct way *) = {unix_serve, tcp_serve, tcp_serve, nats_serve};

size_t datagram_receive(struct transport *transport, const uint8_t **frame) {
    if (transport->is_dry) return 0;
    ssize_t size = recv(transport->file, transport->bytes, sizeof transport->bytes, MSG_DONTWAIT);
    *frame = transport->bytes;
    return size < 0 ? 0 : (size_t)size;
}

void datagram_watch(struct transport *transport, struct watch *watch) {
    transport->is_dry = false;
    watch_file(watch, transport->file, POLLIN);
}

void datagram_learn(struct transport *transport, const struct watch *watch) { transport->is_dry = !watch_tells(watch, transport->file); }

static void serve_way(struct transport *transport, struct way *way) {
    if (way->first) SERVES[way->address->carrier](transport, way);
}

const uint8_t *way_first(const struct way *way, size_t *size) {
    *size = way->first->size - FRAME_LENGTH;
    return way->first->bytes + FRAME_LENGTH;
}

void way_drop(struct way *way) {
    struct frame *first = way->first;
    way->first = first->next;
    if (!way->first) way->last = NULL;
    way->count -= (size_t)first->count;
    free(first);
}

static void lose_all(struct transport *transport, struct way *way) {
    transport->lost += way->count;
    while (way->first) way_drop(way);
}

void way_ends(struct transport *transport, struct way *way, uint64_t again) {
    tls_end(way->tls);
    way->tls = NULL;
    if (way->file >= 0) close(way->file);
    way->file = -1;
    way->connecting = way->is_begun = false;
    way->wants = POLLOUT;
    way->sent = 0;
    way->not_before = clock_now() + again;
    lose_all(transport, way);
}

bool way_waits(struct transport *transport, struct way *way) {
    if (way->file >= 0 || clock_now() >= way->not_before) return false;
    lose_all(transport, way);
    return true;
}

int transport_open(struct transport *transport, const struct cluster *cluster, int me) {
    memset(transport, 0, sizeof *transport);
    transport->cluster = cluster;
    transport->me = me;
    transport->file = -1;
    transport->speakers = UINT32_MAX;
    for (int p = 0; p <= cluster->count; p++)
        transport->ways[p] = (struct way){.address = &cluster->processes[p].address, .file = -1, .wants = POLLOUT};
    for (int i = 0; i < TCP_GUESTS; i++) transport->guests[i].file = transport->guests[i].peer = -1;
    const struct address *own = &cluster->processes[me].address;
    transport->inlet = INLETS[own->carrier];
    if (own->carrier == CARRIER_TCP)
        report_event(LEVEL_WARNING, "open", "tcp:%s: anybody who connects may speak; by tls: those with a certificate", own->where);
    return transport->inlet->open(transport, own);
}

int transport_look(const struct cluster *cluster, int me) {
    const struct address *own = &cluster->processes[me].address;
    return own->carrier == CARRIER_NATS ? nats_look() : address_look(own, SOCK_DGRAM);
}

void transport_belongs(struct transport *transport, const struct id *cluster) { transport->id = *cluster; }

/* The way to another process that is there. */
static struct way *way_to(struct transport *transport, int to) {
    return to < 0 || to > transport->cluster->count || to == transport->me ? NULL : &transport->ways[to];
}

static void way_put(struct way *way, struct frame *frame) {
    if (way->last) way->last->next = frame;
    else way->first = frame;
    way->last = frame;
}

/* Whether packets may join the frame that waits last: a bundle that isn't under way. */
static bool is_open(const struct way *way) {
    bool is_under_way = way->last == way->first && (way->sent > 0 || way->is_begun);
    return way->last && way->last->count > 0 && !is_under_way;
}

/* Puts the first of these packets into the last bundle, or into a new one; how many that are. */
static size_t put_some(const struct transport *transport, struct way *way, struct packets *packets) {
    size_t count = is_open(way) ? bundle_fill(way->last, packets) : 0;
    if (count > 0) return count;
    struct frame *bundle = bundle_new(&transport->id, transport->me, (int)(way - transport->ways));
    if (!bundle) return 0;
    count = bundle_fill(bundle, packets);
    way_put(way, bundle);
    return count;
}

void transport_send(struct transport *transport, int to, struct packets packets) {
    struct way *way = way_to(transport, to);
    if (!way) return;
    bool has_room = way->count < WAITING_LIMIT && !id_is_none(&transport->id);
    for (size_t count; has_room && packets.size > 0 && (count = put_some(transport, way, &packets)) > 0;) {
        way->count += count;
        transport->queued += count;
    }
    const uint8_t *packet;
    while (packets_next(&packets, &packet) > 0) transport->lost++;
}

void transport_greet(struct transport *transport, int to, const struct greeting *greeting) {
    struct way *way = way_to(transport, to);
    struct frame *frame = way ? greeting_new(greeting) : NULL;
    if (frame) way_put(way, frame);
}

static void drop(uint64_t *count, const char *event, const char *what) {
    if ((*count)++ == 0) report_event(LEVEL_WARNING, event, "%s came, and was dropped; more are counted", what);
}

/* A greeting is of the process that joins, and goes to the gateway, or comes from it. */
static void take_greeting(struct transport *transport, const struct greeting *greeting) {
    bool is_to_gateway = greeting->word == WORD_HELLO || greeting->word == WORD_JOIN;
    int process = greeting->process, from = is_to_gateway ? process : 0;
    bool is_ours = transport->me == 0 ? is_to_gateway && process >= 1 && process <= transport->cluster->count
                                      : !is_to_gateway && process == transport->me;
    if (is_ours && transport->speakers >> from & 1) transport->greetings[process] = *greeting;
}

/* Whether it is a bundle for this process, and who sent which packets. */
static bool take_frame(struct transport *transport, const uint8_t *frame, size_t size, struct packets *packets, int *from) {
    struct greeting greeting;
    if (greeting_read(frame, size, &greeting)) {
        take_greeting(transport, &greeting);
        return false;
    }
    if (id_is_none(&transport->id)) return false;
    switch (bundle_judge(frame, size, &transport->id, transport->cluster, transport->me, packets, from)) {
    case KIND_BUNDLE:
        if (!(transport->speakers >> *from & 1)) {
            drop(&transport->broken, "broken", "a bundle of another process than its certificate names");
            return false;
        }
        if (transport->inlet->settle) transport->inlet->settle(transport, *from);
        return true;
    case KIND_FOREIGN: drop(&transport->foreign, "foreign", "a bundle of another cluster"); return false;
    default: drop(&transport->broken, "broken", "what is no bundle"); return false;
    }
}

bool transport_receive(struct transport *transport, struct packets *packets, int *from) {
    const uint8_t *frame;
    size_t size;
    while ((size = transport->inlet->receive(transport, &frame)) > 0)
        if (take_frame(transport, frame, size, packets, from)) return true;
    return false;
}

void transport_refuses(struct transport *transport, struct packets packets, uint64_t count) {
    bool is_told = transport->refused > 0 || count == 0;
    const uint8_t *packet;
    sblog_label label;
    uint32_t fault = 0, code = SBLOG_NODE_DONE;
    size_t size;
    transport->refused += count;
    if (is_told) return;
    while (code != SBLOG_NODE_BYTES && (size = packets_next(&packets, &packet)) > 0)
        code = sblog_packet_label(packet, size, &label, &fault);
    report_event(LEVEL_WARNING, "refused", "bytes came that are no packet: fault %u; more are counted", fault);
}

bool transport_greeted(struct transport *transport, struct greeting *greeting) {
    for (int p = 0; p <= transport->cluster->count; p++) {
        if (!transport->greetings[p].word) continue;
        *greeting = transport->greetings[p];
        transport->greetings[p].word = 0;
        return true;
    }
    return false;
}

void transport_watch(struct transport *transport, struct watch *watch) {
    transport->inlet->watch(transport, watch);
    for (int p = 0; p <= transport->cluster->count; p++)
        if (transport->ways[p].first) watch_file(watch, transport->ways[p].file, transport->ways[p].wants);
}

void transport_learn(struct transport *transport, const struct watch *watch) { transport->inlet->learn(transport, watch); }

void transport_serve(struct transport *transport) {
    for (int p = 0; p <= transport->cluster->count; p++) serve_way(transport, &transport->ways[p]);
}

void transport_reload(struct transport *transport) {
    if (!signal_reload) return;
    signal_reload = 0;
    if (!tls_read_again()) return;
    report_event(LEVEL_INFO, "reload", "certificates were read again");
    for (int p = 0; p <= transport->cluster->count; p++)
        if (transport->ways[p].tls) way_ends(transport, &transport->ways[p], 0);
    tcp_renew(transport);
}

static bool is_waiting(const struct transport *transport) {
    for (int p = 0; p <= transport->cluster->count; p++)
        if (transport->ways[p].first && transport->ways[p].file >= 0) return true;
    return false;
}

void transport_finish(struct transport *transport) {
    uint64_t until = clock_now() + CLOSING;
    transport_serve(transport);
    while (is_waiting(transport) && clock_now() < until) {
        struct watch watch;
        watch_begin(&watch, until);
        for (int p = 0; p <= transport->cluster->count; p++)
            if (transport->ways[p].first) watch_file(&watch, transport->ways[p].file, transport->ways[p].wants);
        watch_wait(&watch);
        transport_serve(transport);
    }
}

void transport_close(struct transport *transport) {
    if (transport->inlet == &unix_inlet) unlink(transport->cluster->processes[transport->me].address.where);
}
