#include "client.h"

#include "client_frames.h"
#include "client_lines.h"
#include "tls.h"

#include <errno.h>
#include <string.h>
#include <sys/socket.h>
#include <unistd.h>

enum { AT_ONCE = 4096 }; /* bytes that a pipe takes whole once it is free */

void client_open(struct client *client, int in, int out, struct tls *tls) {
    static uint64_t serial;
    client->serial = ++serial;
    client->in = in;
    client->out = out;
    client->tls = tls;
    client->is_connection = in >= 0 && in == out;
    client->takes_outputs = client->is_broken = false;
    client->speech = SPEECH_UNKNOWN;
    client->requests = 0;
    client->from = client->have = client->written = client->answers = client->promised = 0;
}

void client_close(struct client *client) {
    tls_end(client->tls);
    if (client->in >= 0 && client->in != client->out) close(client->in);
    if (client->out >= 0) close(client->out);
    client_open(client, -1, -1, NULL);
}

static bool is_ready(int file, short events) {
    struct pollfd state = {.fd = file, .events = events};
    return file >= 0 && poll(&state, 1, 0) == 1;
}

/* Whether more can be read: what was taken gives its bytes back once it is half of them. */
static bool has_text_room(const struct client *client) {
    return client->have < sizeof client->text || client->from > sizeof client->text / 2;
}

static void make_text_room(struct client *client) {
    if (client->from < client->have && client->from <= sizeof client->text / 2) return;
    client->have -= client->from;
    memmove(client->text, client->text + client->from, client->have);
    client->from = 0;
}

void client_read(struct client *client, const struct watch *watch) {
    if (!client->tls && !watch_tells(watch, client->in)) return;
    make_text_room(client);
    size_t room = sizeof client->text - client->have;
    char *at = client->text + client->have;
    if (room == 0 || client->in < 0 || (!client->is_connection && !is_ready(client->in, POLLIN))) return;
    ssize_t size = client->tls ? tls_receive(client->tls, at, room) : read(client->in, at, room);
    if (size > 0) client->have += (size_t)size;
    if (size > 0 || (size < 0 && (errno == EINTR || errno == EAGAIN))) return;
    client->is_broken = client->tls && size < 0;
    client->in = -1; /* no more inputs; outputs may still come */
}

/* Whether there is room for so many bytes beside the answers that are promised. */
static bool has_room(const struct client *client, size_t size) {
    return client->answers - client->written + client->promised * LONGEST_ANSWER + size <= sizeof client->answer;
}

bool client_has_room(const struct client *client) { return has_room(client, LONGEST_OUTPUT); }

/* What is there tells what a program speaks, if that is enough. */
static enum speech speech_of(const struct client *client) {
    size_t left = client->have - client->from;
    if (client->speech != SPEECH_UNKNOWN || left == 0) return client->speech;
    if (!client->is_connection || !frames_begin((const uint8_t *)client->text + client->from, left)) return SPEECH_LINES;
    return left < FRAMES_MAGIC ? SPEECH_UNKNOWN : SPEECH_FRAMES;
}

/* How many bytes the next request has, 0 while it isn't whole. */
static size_t next_size(const struct client *client) {
    const char *at = client->text + client->from;
    size_t left = client->have - client->from;
    switch (speech_of(client)) {
    case SPEECH_LINES: return line_size(at, left);
    case SPEECH_FRAMES: return framed_size((const uint8_t *)at, left);
    default: return 0;
    }
}

bool client_has_request(const struct client *client) { return has_room(client, LONGEST_ANSWER) && next_size(client) > 0; }

/* Nothing more is read of a program that sent what is no frame. */
static void stop_reading(struct client *client) {
    client->in = -1;
    client->from = client->have = 0;
    client->takes_outputs = false;
}

/* The bytes that a connection of frames begins with are taken once. */
static void learn_speech(struct client *client) {
    enum speech speech = speech_of(client);
    bool begins = client->speech == SPEECH_UNKNOWN && speech == SPEECH_FRAMES;
    if (begins && frames_are_known((const uint8_t *)client->text + client->from)) client->from += FRAMES_MAGIC;
    client->speech = speech;
}

bool client_request(struct client *client, const struct cluster *cluster, struct request *request) {
    learn_speech(client);
    char *at = client->text + client->from;
    size_t size = next_size(client);
    if (size == 0 || !has_room(client, LONGEST_ANSWER)) return false;
    request->verb = VERB_NONE;
    request->why = REFUSAL_NONE;
    request->process = 0;
    request->ssn = 0;
    *request->id = 0;
    client->from += size;
    client->requests++;
    client->promised++;
    if (client->speech == SPEECH_LINES) line_read(at, size, cluster, request);
    else framed_read((const uint8_t *)at, size, cluster, request);
    if (request->why != REFUSAL_NONE) request->verb = VERB_REFUSED;
    if (refusal_ends(request->why)) stop_reading(client);
    return true;
}

/* What is written goes from the front. */
static void make_room(struct client *client) {
    client->answers -= client->written;
    memmove(client->answer, client->answer + client->written, client->answers);
    client->written = 0;
}

void client_reply(struct client *client, const struct cluster *cluster, const struct reply *reply) {
    size_t longest = reply->verb == VERB_OUTPUT ? LONGEST_OUTPUT : LONGEST_ANSWER;
    if (longest > sizeof client->answer - client->answers) make_room(client);
    client->is_broken |= longest > sizeof client->answer - client->answers;
    if (client->is_broken) return;
    char *at = client->answer + client->answers;
    if (client->speech == SPEECH_FRAMES) client->answers += framed_write(reply, (uint8_t *)at);
    else client->answers += line_write(reply, cluster, at);
}

/* A connection doesn't block; of another file so many bytes don't, once it is ready. */
static ssize_t write_some(const struct client *client) {
    const char *from = client->answer + client->written;
    size_t size = client->answers - client->written;
    if (client->tls) return tls_send(client->tls, from, size);
    if (client->is_connection) return send(client->out, from, size, MSG_DONTWAIT | MSG_NOSIGNAL);
    errno = EAGAIN;
    return is_ready(client->out, POLLOUT) ? write(client->out, from, size < AT_ONCE ? size : AT_ONCE) : -1;
}

void client_write(struct client *client) {
    while (client->written < client->answers) {
        ssize_t size = write_some(client);
        if (size < 0 && (errno == EINTR || errno == EAGAIN)) return;
        if (size < 0) {
            client->is_broken = true;
            return;
        }
        client->written += (size_t)size;
    }
    client->written = client->answers = 0;
}

/* By tls a program that has said all ends its side of that, and its side of the stream when it goes. */
bool client_is_gone(const struct client *client) { return client->is_broken || is_ready(client->out, client->tls ? POLLRDHUP : 0); }

bool client_is_over(const struct client *client) {
    return client->out >= 0 && (client->is_broken || (client->in < 0 && client_is_gone(client)));
}

bool client_is_done(const struct client *client) {
    return client->out >= 0 && client->in < 0 && next_size(client) == 0 && client->answers == 0 && client->promised == 0 &&
           !client->takes_outputs;
}

bool client_is_free(struct client *client) { return client->answers == 0 && is_ready(client->out, POLLOUT); }

void client_watch(const struct client *client, bool reads, bool writes, struct watch *watch) {
    if (reads && has_text_room(client)) watch_file(watch, client->in, POLLIN);
    if (writes || client->answers > 0) watch_file(watch, client->out, POLLOUT);
}
