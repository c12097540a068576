/* Hands inputs in at a gateway that listens, for process 1, and takes outputs: each comes once, in order, with the bytes that were handed
   in (docs/FORMATS.md, "Frames of a program"). passes SOCKET COUNT AHEAD */
#include "times.h"

#include <poll.h>
#include <sys/socket.h>
#include <sys/un.h>
#include <unistd.h>

enum { INPUT = 1, LOGGED, OUTPUT = 4, TAKEN, PROCESS = 1, LENGTH = 4, HEAD = 14, EVERY = 128 };
enum { ROOM = 1 << 20, PATIENCE = 60000, TRIES = 500, PAUSE = 20000 };

struct passes {
    int file;
    struct times times;
    uint64_t ssn;  /* of the last output */
    long unlogged; /* questions and inputs without an answer */
    uint8_t in[ROOM], out[ROOM];
    size_t have, from, to;
};

static int connection(const char *path) {
    struct sockaddr_un address = {.sun_family = AF_UNIX};
    strncpy(address.sun_path, path, sizeof address.sun_path - 1);
    for (int i = 0; i < TRIES; i++) {
        int file = socket(AF_UNIX, SOCK_STREAM, 0);
        if (connect(file, (const struct sockaddr *)&address, sizeof address) == 0) return file;
        close(file);
        usleep(PAUSE);
    }
    fails("nobody listens");
    return -1;
}

/* The place of the payload of the next frame. */
static uint8_t *put_frame(struct passes *all, uint8_t kind, uint8_t process, uint64_t ssn, uint32_t size) {
    uint8_t *at = all->out + all->to;
    uint32_t length = HEAD - LENGTH + size;
    memcpy(at, &length, sizeof length);
    at[4] = kind;
    at[5] = process;
    memcpy(at + 6, &ssn, sizeof ssn);
    all->to += HEAD + size;
    return at + HEAD;
}

static void put_inputs(struct passes *all) {
    while (times_may_send(&all->times) && all->to + 2 * (HEAD + SIZE) < ROOM) {
        times_send(&all->times, put_frame(all, INPUT, PROCESS, 0, SIZE));
        all->unlogged++;
    }
}

static void send_some(struct passes *all) {
    ssize_t size = send(all->file, all->out + all->from, all->to - all->from, MSG_DONTWAIT | MSG_NOSIGNAL);
    if (size > 0) all->from += (size_t)size;
    if (all->from == all->to) all->from = all->to = 0;
}

/* An output has to be the next one; now and then it is said that those up to it are taken, and at last a question is asked: its answer
   tells that the gateway has heard so. */
static void take_output(struct passes *all, uint8_t process, uint64_t ssn, const uint8_t *payload, size_t size) {
    if (all->ssn > 0 && ssn != all->ssn + 1) fails("an output was lost or doubled");
    all->ssn = ssn;
    times_show(&all->times, payload, size);
    bool is_over = times_are_over(&all->times);
    if (all->times.shown % EVERY == 0 || is_over) put_frame(all, TAKEN, process, ssn, 0);
    if (!is_over) return;
    put_frame(all, LOGGED, PROCESS, 0, 0);
    all->unlogged++;
}

static void receive_some(struct passes *all) {
    ssize_t count = recv(all->file, all->in + all->have, ROOM - all->have, MSG_DONTWAIT);
    if (count == 0) fails("the gateway is gone");
    if (count < 0) return;
    all->have += (size_t)count;
    size_t at = 0;
    for (uint32_t length; all->have - at >= HEAD; at += LENGTH + length) {
        const uint8_t *frame = all->in + at;
        uint64_t ssn;
        memcpy(&length, frame, sizeof length);
        memcpy(&ssn, frame + 6, sizeof ssn);
        if (all->have - at < LENGTH + length) break;
        if (frame[4] == OUTPUT) take_output(all, frame[5], ssn, frame + HEAD, LENGTH + length - HEAD);
        else if (frame[4] == LOGGED) all->unlogged--;
        else fails("a request was refused");
    }
    all->have -= at;
    memmove(all->in, all->in + at, all->have);
}

int main(int argc, char **argv) {
    static struct passes all;
    if (argc != 4) return 2;
    all.file = connection(argv[1]);
    all.times = times_begin(argv[2], argv[3]);
    memcpy(all.out, "SBF1", all.to = 4);
    put_frame(&all, OUTPUT, 0, 0, 0);
    while (!times_are_over(&all.times) || all.unlogged > 0) {
        put_inputs(&all);
        struct pollfd state = {.fd = all.file, .events = POLLIN | (all.from < all.to ? POLLOUT : 0)};
        if (poll(&state, 1, PATIENCE) == 0) fails("nothing comes");
        if (state.revents & POLLOUT) send_some(&all);
        if (state.revents & ~POLLOUT) receive_some(&all);
    }
    times_print(&all.times);
    return 0;
}
