/* Packets between processes, as bundles, by the carrier of each one's address. What can't be sent soon is lost, as any packet may
   be; a bundle of another cluster is dropped, and so is one that isn't whole. */
#ifndef TRANSPORT_H
#define TRANSPORT_H

#include "cluster.h"
#include "frame.h"
#include "id.h"
#include "watch.h"

#include <stdbool.h>
#include <stddef.h>
#include <stdint.h>

/* The way to one peer, and the frames that wait for it. */
struct way {
    const struct address *address;
    int file;            /* a socket, or -1 */
    uint64_t not_before; /* when a connection is tried again */
    struct frame *first, *last;
    size_t count;    /* packets that wait */
    size_t sent;     /* bytes of the first frame, by tcp */
    bool connecting; /* by tcp */
    bool is_begun;   /* by tls: the next bytes of the first frame were handed in, and may not change */
    short wants;     /* what is waited for while frames wait, as poll has it */
    struct tls *tls;
    struct nats_link *link;
};

struct transport;

/* Where one's own frames come in, for each carrier. A frame is there until the next one is asked for. */
struct inlet {
    int (*open)(struct transport *transport, const struct address *own);
    size_t (*receive)(struct transport *transport, const uint8_t **frame);
    void (*watch)(struct transport *transport, struct watch *watch);
    void (*learn)(struct transport *transport, const struct watch *watch); /* after the wait: what has nothing new is left alone */
    void (*settle)(struct transport *transport, int peer); /* the last frame was of this peer; null if that tells nothing */
};

enum { TCP_GUESTS = 64 };

/* A program that has connected by tcp, and what came of it and wasn't taken yet. */
struct guest {
    int file;       /* -1: none */
    struct tls *tls;
    int peer;       /* who sent its last bundle; -1: none came yet */
    bool is_dry;    /* no more is there for now */
    uint64_t since; /* when it connected, or its next frame began */
    size_t from, have;
    uint8_t *bytes;
};

struct transport {
    const struct cluster *cluster;
    struct id id; /* none: no bundle is taken or sent yet */
    int me;
    struct way ways[PROCESS_LIMIT + 1];
    const struct inlet *inlet;
    int file; /* that frames come from, or connections */
    bool is_dry; /* nothing has come there */
    struct guest guests[TCP_GUESTS];
    int guest;         /* whose turn it is */
    uint32_t speakers; /* who may have sent the last frame: bit p is process p's; by a carrier that doesn't tell anybody */
    struct nats_link *links;
    struct greeting greetings[PROCESS_LIMIT + 1]; /* the last one that came of each process, without a word where none did */
    uint64_t queued, lost;                        /* packets that were put to others, and that weren't sent */
    uint64_t broken, foreign, refused;            /* frames that aren't whole, those of another cluster, and what is no packet */
    uint8_t bytes[FRAME_LIMIT];
};

/* Takes one's own address; a status, and why is reported. */
int transport_open(struct transport *transport, const struct cluster *cluster, int me);

/* Whether that would do: nothing is taken. */
int transport_look(const struct cluster *cluster, int me);

/* Which cluster this process is of: no packet is sent or taken before. */
void transport_belongs(struct transport *transport, const struct id *cluster);

/* Each goes when the transport is served. */
void transport_send(struct transport *transport, int to, struct packets packets);
void transport_greet(struct transport *transport, int to, const struct greeting *greeting);

/* The packets of the next bundle that came, which are there until this is asked again, and who sent them; false if there is none. */
bool transport_receive(struct transport *transport, struct packets *packets, int *from);

/* So many of these are no packets: they are counted, and the first time it is said by which fault. */
void transport_refuses(struct transport *transport, struct packets packets, uint64_t count);

/* Takes a greeting that came while packets were received; false if there is none. */
bool transport_greeted(struct transport *transport, struct greeting *greeting);

/* After a SIGHUP certificates are read again, and connections by tls begin anew. */
void transport_reload(struct transport *transport);

/* What is to be waited for, what came of that, and what is to be done then. */
void transport_watch(struct transport *transport, struct watch *watch);
void transport_learn(struct transport *transport, const struct watch *watch);
void transport_serve(struct transport *transport);

/* Sends what it can of what waits, for at most a fifth of a second. */
void transport_finish(struct transport *transport);
void transport_close(struct transport *transport);

/* The next datagram of the transport's file. */
size_t datagram_receive(struct transport *transport, const uint8_t **frame);
void datagram_watch(struct transport *transport, struct watch *watch);
void datagram_learn(struct transport *transport, const struct watch *watch);

/* The peer is away: what waits for it is lost, and it is tried again after so many microseconds. */
void way_ends(struct transport *transport, struct way *way, uint64_t again);

/* Whether that time isn't over yet: what waits is lost then. */
bool way_waits(struct transport *transport, struct way *way);

/* The first frame of a way, without its length; and that it was sent, or is lost. */
const uint8_t *way_first(const struct way *way, size_t *size);
void way_drop(struct way *way);

/* Of each carrier: what can be sent is sent. */
void unix_serve(struct transport *transport, struct way *way);
void tcp_serve(struct transport *transport, struct way *way);
void tcp_renew(struct transport *transport);
void nats_serve(struct transport *transport, struct way *way);

/* Whether this program was built with it; why not is reported. */
int nats_look(void);

extern const struct inlet unix_inlet, tcp_inlet, nats_inlet;

#endif
