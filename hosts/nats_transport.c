/* Subjects of a NATS server, which does routing, reconnection and TLS. A thread of the client's library hands what comes to a
   pair of sockets, from which it is taken like any other frame. */
#include "nats_connection.h"
#include "report.h"
#include "transport.h"

#ifdef WITH_NATS

#include <errno.h>
#include <stdio.h>
#include <stdlib.h>
#include <string.h>
#include <sys/socket.h>

enum { SUBJECT_LIMIT = 2 * NAME_LIMIT, AGAIN = 100, STASH = 1 << 20, BUFFER = 1 << 21 }; /* milliseconds; bytes */

/* A server is asked each 5 seconds whether it is there, and given up after two questions without an answer; so is one that takes no
   bytes for as long. */
enum { QUESTION = 5000, QUESTIONS = 2 };

enum { URL_LIMIT = 1024, SERVER_LIMIT = 16 }; /* bytes of a word with servers; servers in it */

/* One connection for each server that is named. */
struct nats_link {
    struct nats_link *next;
    const char *url;
    natsConnection *connection;
};

const char *nats_shown(const char *url) { return strrchr(url, '@') ? strrchr(url, '@') + 1 : url; }

/* With it the first connection is made in a thread, too, and the program doesn't wait for a server that is away. */
static void connected(natsConnection *connection, void *url) {
    (void)connection;
    report_event(LEVEL_INFO, "server", "nats server %s: it answers", nats_shown(url));
}

/* One server, or several of one cluster, with commas between them. */
static natsStatus set_servers(natsOptions *options, const char *url) {
    char text[URL_LIMIT], *rest;
    const char *servers[SERVER_LIMIT];
    int count = 0;
    if (strlen(url) >= URL_LIMIT) return NATS_INVALID_ARG;
    strcpy(text, url);
    for (char *server = strtok_r(text, ",", &rest); server && count < SERVER_LIMIT; server = strtok_r(NULL, ",", &rest))
        servers[count++] = server;
    return natsOptions_SetServers(options, servers, count);
}

natsStatus nats_connect(natsConnection **connection, const char *url) {
    natsOptions *options = NULL;
    natsStatus status = natsOptions_Create(&options);
    if (status == NATS_OK) status = set_servers(options, url);
    if (status == NATS_OK) status = natsOptions_SetMaxReconnect(options, -1);
    if (status == NATS_OK) status = natsOptions_SetReconnectWait(options, AGAIN);
    if (status == NATS_OK) status = natsOptions_SetReconnectJitter(options, AGAIN, AGAIN);
    if (status == NATS_OK) status = natsOptions_SetPingInterval(options, QUESTION);
    if (status == NATS_OK) status = natsOptions_SetMaxPingsOut(options, QUESTIONS);
    if (status == NATS_OK) status = natsOptions_SetWriteDeadline(options, QUESTION);
    if (status == NATS_OK) status = natsOptions_SetReconnectBufSize(options, STASH);
    if (status == NATS_OK) status = natsOptions_SetRetryOnFailedConnect(options, true, connected, (void *)url);
    if (status == NATS_OK) status = natsOptions_SetSendAsap(options, true);
    if (status == NATS_OK) status = natsConnection_Connect(connection, options);
    natsOptions_Destroy(options);
    return status;
}

static struct nats_link *link_to(struct transport *transport, const char *url) {
    for (struct nats_link *link = transport->links; link; link = link->next)
        if (!strcmp(link->url, url)) return link;
    struct nats_link *link = calloc(1, sizeof *link);
    if (!link) return NULL;
    natsStatus status = nats_connect(&link->connection, url);
    if (status != NATS_OK && status != NATS_NOT_YET_CONNECTED) {
        report("nats server %s: %s", nats_shown(url), natsStatus_GetText(status));
        free(link);
        return NULL;
    }
    if (status == NATS_NOT_YET_CONNECTED) report_event(LEVEL_WARNING, "server", "nats server %s: it doesn't answer yet", nats_shown(url));
    link->url = url;
    link->next = transport->links;
    transport->links = link;
    return link;
}

/* In a thread of the client's library, which waits where the main thread doesn't keep up. */
static void arrived(natsConnection *connection, natsSubscription *subscription, natsMsg *message, void *socket) {
    (void)connection, (void)subscription;
    int size = natsMsg_GetDataLength(message);
    if (size > 0 && size <= FRAME_LIMIT)
        send((int)(intptr_t)socket, natsMsg_GetData(message), (size_t)size, MSG_NOSIGNAL);
    natsMsg_Destroy(message);
}

/* The end to read from, and through other that to write to; -1. */
static int pair_open(int *other) {
    int pair[2], size = BUFFER;
    if (socketpair(AF_UNIX, SOCK_SEQPACKET | SOCK_CLOEXEC, 0, pair) != 0) return -1;
    setsockopt(pair[1], SOL_SOCKET, SO_SNDBUF, &size, sizeof size);
    *other = pair[1];
    return pair[0];
}

static int nats_open(struct transport *transport, const struct address *own) {
    char subject[SUBJECT_LIMIT];
    int end;
    natsSubscription *subscription;
    struct nats_link *link = link_to(transport, own->where);
    if (!link) return STATUS_IO;
    transport->file = pair_open(&end);
    if (transport->file < 0) {
        report_fault("nats server %s", nats_shown(own->where));
        return STATUS_IO;
    }
    snprintf(subject, sizeof subject, "sblog.%s.%d", transport->cluster->name, transport->me);
    void *closure = (void *)(intptr_t)end;
    natsStatus status = natsConnection_Subscribe(&subscription, link->connection, subject, arrived, closure);
    if (status != NATS_OK) {
        report("nats server %s: %s: %s", nats_shown(own->where), subject, natsStatus_GetText(status));
        return STATUS_IO;
    }
    return STATUS_DONE;
}

int nats_look(void) { return STATUS_DONE; }

/* While the server is away the client's library keeps what fits its buffer. */
void nats_serve(struct transport *transport, struct way *way) {
    char subject[SUBJECT_LIMIT];
    if (!way->link) way->link = link_to(transport, way->address->where);
    snprintf(subject, sizeof subject, "sblog.%s.%d", transport->cluster->name, (int)(way - transport->ways));
    while (way->first) {
        size_t size;
        const uint8_t *frame = way_first(way, &size);
        natsStatus status = NATS_NO_SERVER;
        if (way->link) status = natsConnection_Publish(way->link->connection, subject, frame, (int)size);
        if (status != NATS_OK) transport->lost += (uint64_t)way->first->count;
        way_drop(way);
    }
}

#else

int nats_look(void) {
    report("nats: this program was built where the NATS client's library isn't");
    return STATUS_IO;
}

static int nats_open(struct transport *transport, const struct address *own) {
    (void)transport, (void)own;
    return nats_look();
}

void nats_serve(struct transport *transport, struct way *way) {
    transport->lost += way->count;
    while (way->first) way_drop(way);
}

#endif

const struct inlet nats_inlet = {nats_open, datagram_receive, datagram_watch, datagram_learn, NULL};
