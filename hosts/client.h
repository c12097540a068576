/* A program that hands in inputs and takes outputs, by lines or by frames: standard input and output, or a connection. */
#ifndef CLIENT_H
#define CLIENT_H

#include "request.h"
#include "watch.h"

#include <stdbool.h>

enum { CLIENT_ROOM = 1 << 18, ANSWER_ROOM = 1 << 20 };

/* What it speaks; its first bytes tell. */
enum speech { SPEECH_UNKNOWN, SPEECH_LINES, SPEECH_FRAMES };

struct client {
    int in, out; /* -1: closed */
    bool is_connection, takes_outputs, is_broken;
    enum speech speech;
    struct tls *tls; /* null for another carrier */
    uint64_t serial; /* which connection it is */
    uint64_t requests;
    size_t from, have;       /* where the bytes begin that were read and not taken yet, and where they end */
    size_t written, answers; /* where the bytes begin that are to be written, and where they end */
    size_t promised;         /* answers of requests that were taken, which are still to come: there is room for each */
    char text[CLIENT_ROOM], answer[ANSWER_ROOM];
};

void client_open(struct client *client, int in, int out, struct tls *tls);
void client_close(struct client *client);

/* Reads what is there, if what was waited for tells that something is. */
void client_read(struct client *client, const struct watch *watch);

/* The next whole request; false if there is none, or no room for its answer beside those that are promised. After what is no frame nothing
   more is read, and the connection ends once that was answered. */
bool client_request(struct client *client, const struct cluster *cluster, struct request *request);

/* Whether there is a next request, whole, with room for its answer. */
bool client_has_request(const struct client *client);

/* Whether there is room for an output beside the answers that are promised. */
bool client_has_room(const struct client *client);

/* Gives an answer or an output. Its bytes have room: those of a promised answer, or after client_has_room. */
void client_reply(struct client *client, const struct cluster *cluster, const struct reply *reply);

/* Writes answers as far as that doesn't block. */
void client_write(struct client *client);

/* Whether nobody reads what is written any more; and whether it is over: all that it said was read, too. */
bool client_is_gone(const struct client *client);
bool client_is_over(const struct client *client);

/* Whether it has said all that it had to say, was answered, and waits for nothing. */
bool client_is_done(const struct client *client);

/* Whether a line can be written now, whole, behind all answers. */
bool client_is_free(struct client *client);

void client_watch(const struct client *client, bool reads, bool writes, struct watch *watch);

#endif
