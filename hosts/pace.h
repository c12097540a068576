/* How fast messages go to each peer, and when what isn't answered goes again. A peer that has too much to do drops messages, and
   each one that was sent too early has to be sent again: so some wait here until those before them are answered. */
#ifndef PACE_H
#define PACE_H

#include "bytes.h"
#include "histogram.h"
#include "transport.h"

#include <sblog.h>

enum { LONGEST_PAUSE = 32 }; /* in shortest ones */

/* Messages that wait, in their order. */
struct held {
    struct bytes bytes; /* of each its SSN, how many bytes follow, and the message as a bundle has it */
    size_t from, count; /* where the first one begins, and how many they are */
};

/* One number at a time, and since when its answer is waited for; 0 for none. */
struct timer {
    uint64_t number, since;
};

/* The messages to one peer, and the numbers that it was told. */
struct flow {
    uint64_t newest, sent, answered; /* the last SSN that was put out, that was sent, and that the peer has */
    uint64_t told, acknowledged; /* the last number that it was told, and acknowledged */
    struct timer message, number; /* an SSN, and a number that it was told */
    struct timer shown;          /* an SSN for those who look at how long answers take: also of one that was sent again */
    uint64_t usual, spare;       /* microseconds that an answer takes, and that it is off by */
    uint64_t window, grown;      /* messages without an answer; answers since it grew */
    uint64_t since;              /* when it answered last, or what is open was sent */
    uint64_t spread;             /* by how many 1,024ths its next pause is longer */
    uint64_t refill;             /* the SSN behind which a tick has more to send; 0 for none */
    int tries;                   /* ticks since it answered */
    int again;                   /* messages of the last tick */
    bool is_known;               /* whether answered is */
    bool is_back;                /* it came back: it may have forgotten what it had, and takes it again */
    bool is_late;                /* whether its answer was when it ticked */
    struct held held;
};

struct pace {
    struct transport *transport;
    uint64_t shortest, longest; /* microseconds between ticks */
    uint64_t least, most;       /* windows: an equal share of what a node takes, and what they grow to */
    uint64_t last;              /* when it ticked */
    uint64_t chance;
    struct histogram took; /* from a message's first sending until it is answered */
    struct flow flows[PROCESS_LIMIT + 1];
};

void pace_begin(struct pace *pace, struct transport *transport, uint64_t shortest);

/* Sends packets that the library put out, or keeps some until their time has come; and those of a tick, after it began. */
void pace_send(struct pace *pace, int to, struct packets packets, uint64_t now);
void pace_tick_begins(struct pace *pace, uint64_t now);
void pace_tick_sends(struct pace *pace, int to, struct packets packets, uint64_t now);

/* Adds what packets of a peer tell to the news; without memory it is lost. */
void pace_read(const struct pace *pace, int from, struct packets packets, struct bytes *news);

/* Learns the news, once they count, and sends what may go then. The acknowledgements that the library has put out for these packets have to
   go before: else the peer has more open numbers than it takes, and drops what follows. */
void pace_hear(struct pace *pace, const struct bytes *news, uint64_t now);

/* A pause that is up to a quarter longer, by chance: programs that lost something together don't send it again together. */
uint64_t pace_spread(struct pace *pace, uint64_t pause);

/* When the next tick is due. */
uint64_t pace_due(const struct pace *pace);

#endif
