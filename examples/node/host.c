/* The host of one durable node: host DIRECTORY ME N IMAGE. Packets go over datagram sockets DIRECTORY/0, /1, .., of which 0 is the
   gateway's. What is kept of the node lies in DIRECTORY, as kept_file.c or kept_sqlite.c keeps it: it may be killed at
   any moment, and counts on. */
#include <poll.h>
#include <stdio.h>
#include <stdlib.h>
#include <string.h>
#include <sys/socket.h>
#include <sys/un.h>
#include <unistd.h>

#include "kept.h"
#include "sblog.h"

enum { PAGE = 60000, TICK = 8, NUMBERS = 256, RECEIPTS = 65536, DURABLE = 1, WAIT = 50, FILE_LIMIT = 1 << 20 };

static uint8_t packet[PAGE], image[FILE_LIMIT], kept[FILE_LIMIT];

static void check(int holds, const char *why) {
    if (holds) return;
    perror(why);
    exit(1);
}

/* The bytes of the image's file. */
static size_t image_of(const char *path) {
    FILE *file = fopen(path, "rb");
    check(file != NULL, path);
    size_t size = fread(image, 1, sizeof image, file);
    check(fclose(file) == 0, path);
    return size;
}

static struct sockaddr_un address(unsigned number) {
    struct sockaddr_un at = {.sun_family = AF_UNIX};
    snprintf(at.sun_path, sizeof at.sun_path, "%u", number);
    return at;
}

/* What the node gives is sent; a packet that can't be is lost, as any may be. */
static void send_all(sblog_node *node, int socket_) {
    size_t size;
    uint8_t to;
    while (sblog_node_take(node, packet, sizeof packet, &size, &to) == SBLOG_NODE_DONE) {
        struct sockaddr_un at = address(to);
        sendto(socket_, packet, size, MSG_DONTWAIT, (struct sockaddr *)&at, sizeof at);
    }
}

/* A checkpoint, where one can be made: the node goes on once its bytes are durable. */
static void keep(sblog_node *node, const char *name) {
    size_t size;
    if (sblog_node_checkpoint(node, kept, sizeof kept, &size) != SBLOG_NODE_DONE) return;
    kept_store(name, kept, size);
    check(sblog_node_saved(node) == SBLOG_NODE_DONE, "saved");
}

/* A new node where nothing is kept; else the node that it was, in the next incarnation. Either is durable before what is kept in
   it: so where something is kept, an incarnation is. */
static void begin(sblog_node *node, uint8_t me, uint8_t n, size_t image_len, const char *name) {
    char life_name[16];
    uint64_t life = 0;
    uint32_t fault = 0;
    snprintf(life_name, sizeof life_name, "life.%u", me);
    size_t size = kept_load(name, kept, sizeof kept);
    kept_load(life_name, &life, sizeof life);
    check(size > 0 ? life >= 1 : life <= 1, "what was kept is lost");
    life = size > 0 ? life + 1 : 1;
    kept_store(life_name, &life, sizeof life);
    if (size == 0) {
        check(sblog_node_open(image, image_len, me, n, PAGE, TICK, NUMBERS, RECEIPTS, DURABLE, node) == SBLOG_NODE_DONE, "open");
        keep(node, name);
        return;
    }
    uint32_t code = sblog_node_revive(image, image_len, kept, size, life, PAGE, TICK, NUMBERS, RECEIPTS, DURABLE, node, &fault);
    check(code == SBLOG_NODE_DONE, "revive");
}

int main(int count, char **words) {
    check(count == 5, "host DIRECTORY ME N IMAGE");
    uint8_t me = (uint8_t)atoi(words[2]), n = (uint8_t)atoi(words[3]);
    size_t image_len = image_of(words[4]);
    check(chdir(words[1]) == 0, words[1]);
    char name[16];
    snprintf(name, sizeof name, "kept.%u", me);
    struct sockaddr_un at = address(me);
    unlink(at.sun_path);
    int socket_ = socket(AF_UNIX, SOCK_DGRAM, 0);
    check(bind(socket_, (struct sockaddr *)&at, sizeof at) == 0, at.sun_path);

    sblog_node node = {0};
    begin(&node, me, n, image_len, name);
    for (;;) {
        while (sblog_node_work(&node) == SBLOG_NODE_DONE) {}
        sblog_standing standing;
        sblog_node_standing(&node, &standing);
        if (standing.receipts > 0) keep(&node, name);
        send_all(&node, socket_);
        struct pollfd waits = {.fd = socket_, .events = POLLIN};
        if (poll(&waits, 1, WAIT) > 0) {
            ssize_t size = recv(socket_, packet, sizeof packet, 0);
            uint32_t fault;
            if (size >= 0) sblog_node_receive(&node, packet, (size_t)size, &fault);
        } else {
            sblog_node_tick(&node);
        }
    }
}
