#include "node_state.h"

#include "bytes.h"
#include "hash.h"
#include "limits.h"
#include "membership.h"
#include "privileges.h"
#include "report.h"
#include "suspension.h"

#include <inttypes.h>
#include <stdio.h>
#include <stdlib.h>
#include <string.h>
#include <sys/socket.h>

enum { ROOM = 4096 };                /* what a checkpoint takes at first */
enum { STATE_SIZE = 4, LENGTH = 2 }; /* the place in an image of its state's length (docs/FORMATS.md, "Image file") */

static const char *const KEPT = "kept";

static const struct process *own_line(const struct node_host *host) { return &host->cluster->processes[host->options->me]; }

static int read_file(const char *path, uint8_t **bytes, size_t *size) {
    FILE *file = fopen(path, "rb");
    long length = -1;
    if (file && fseek(file, 0, SEEK_END) == 0) length = ftell(file);
    *bytes = length < 0 ? NULL : malloc((size_t)length + 1);
    if (*bytes) {
        rewind(file);
        *size = fread(*bytes, 1, (size_t)length, file);
    } else report_fault("%s", path);
    if (file) fclose(file);
    return *bytes ? STATUS_DONE : STATUS_IO;
}

/* Reads the image, and what tells it from others. */
static int read_image(struct node_host *host, char hash[HASH_TEXT]) {
    int status = read_file(own_line(host)->image, &host->image, &host->image_size);
    if (status == STATUS_DONE) hash_text(host->image, host->image_size, hash);
    return status;
}

/* Reads what a new store begins with, if its line names that. */
static int read_state(struct node_host *host, bool is_new) {
    const char *path = own_line(host)->state;
    return is_new && path ? read_file(path, &host->state, &host->state_size) : STATUS_DONE;
}

uint32_t node_bytes(struct node_host *host, uint32_t (*call)(sblog_node *, uint8_t *, size_t, size_t *), size_t *size) {
    uint32_t code;
    while ((code = call(&host->node, host->bytes, host->room, size)) == SBLOG_NODE_ROOM)
        if (!bytes_fit(&host->bytes, &host->room, *size)) return SBLOG_NODE_MEMORY;
    return code;
}

/* Whether nothing is kept, or what a first life keeps that was killed before its store had a name: the bytes of one that begins.
   Any other store lost its name, and stays. */
static int judge_new(struct node_host *host, size_t size) {
    uint8_t *kept;
    size_t kept_size;
    int status = slots_open(&host->slots, &host->store, &kept, &kept_size);
    bool is_new = !kept || (kept_size == size && !memcmp(kept, host->bytes, size));
    free(kept);
    if (status != STATUS_DONE || is_new) return status;
    report("%s: the file %s holds messages, and the file identity is missing", host->store.path, KEPT);
    return STATUS_STORE;
}

/* The state has another length than the image says. */
static int state_refused(const struct node_host *host) {
    report("%s, line %d: the state has %zu bytes, and that of the image %" PRIu64 ": %s", host->options->cluster, own_line(host)->line,
           host->state_size, number_at(host->image + STATE_SIZE, LENGTH), own_line(host)->state);
    return STATUS_CLUSTER;
}

static int open_new(struct node_host *host, const struct owner *owner) {
    const uint8_t me = (uint8_t)owner->me, count = (uint8_t)host->cluster->count;
    uint32_t code = host->state ? sblog_node_open_with(host->image, host->image_size, me, count, PAGE, TICK, NUMBERS, RECEIPTS,
                                                       owner->durable, host->state, host->state_size, &host->node)
                                : sblog_node_open(host->image, host->image_size, me, count, PAGE, TICK, NUMBERS, RECEIPTS,
                                                  owner->durable, &host->node);
    if (code == SBLOG_NODE_BYTES) return state_refused(host);
    return code == SBLOG_NODE_DONE ? STATUS_DONE : code_refused("open", code, 0);
}

/* The first life: what it begins with is durable, then the incarnation, then whose it is, and the id of the store; and then it
   begins. */
static int begin_new(struct node_host *host, const struct owner *owner, uint64_t incarnation) {
    size_t size;
    if (incarnation > 1) {
        report("%s: it had %" PRIu64 " lives, and the file identity is missing", host->store.path, incarnation);
        return STATUS_STORE;
    }
    int status = open_new(host, owner);
    if (status != STATUS_DONE) return status;
    uint32_t code = node_bytes(host, sblog_node_checkpoint, &size);
    if (code != SBLOG_NODE_DONE) return code_refused("checkpoint", code, 0);
    status = judge_new(host, size);
    if (status == STATUS_DONE) status = slots_write(&host->slots, host->bytes, size);
    if (status == STATUS_DONE) status = store_write_incarnation(&host->store, 1);
    if (status == STATUS_DONE) status = id_draw(&host->ids.stores[owner->me]);
    if (status == STATUS_DONE) status = store_write_identity(&host->store, owner, &host->ids);
    if (status != STATUS_DONE) return status;
    code = sblog_node_saved(&host->node);
    return code == SBLOG_NODE_DONE ? STATUS_DONE : code_refused("saved", code, 0);
}

/* A life after another one that was killed: its incarnation is durable first. */
static int revive(struct node_host *host, const struct owner *owner, uint64_t incarnation, const uint8_t *kept, size_t size) {
    uint32_t fault = 0;
    int status = store_write_incarnation(&host->store, incarnation);
    if (status != STATUS_DONE) return status;
    uint32_t code = sblog_node_revive(host->image, host->image_size, kept, size, incarnation, PAGE, TICK, NUMBERS, RECEIPTS, owner->durable,
                                      &host->node, &fault);
    return code == SBLOG_NODE_DONE ? STATUS_DONE : code_refused(KEPT, code, fault);
}

/* A life that was suspended goes on; a new one begins after any other. */
static int begin_again(struct node_host *host, const struct owner *owner, uint64_t incarnation) {
    uint8_t *kept;
    size_t size;
    int status = slots_open(&host->slots, &host->store, &kept, &size);
    if (status != STATUS_DONE) return status;
    if (!kept || incarnation == 0) {
        report("%s: the file %s is missing", host->store.path, kept ? "incarnation" : KEPT);
        free(kept);
        return STATUS_STORE;
    }
    status = suspension_take(host, incarnation, kept, size, &host->is_resumed);
    if (status == STATUS_DONE && !host->is_resumed) status = revive(host, owner, incarnation + 1, kept, size);
    free(kept);
    return status;
}

static int begin_life(struct node_host *host, const struct owner *owner, bool is_new) {
    uint64_t incarnation;
    uint64_t inexact = 0;
    int status = store_read_incarnation(&host->store, &incarnation);
    if (status == STATUS_DONE) status = store_read_inexact(&host->store, &inexact);
    if (status != STATUS_DONE) return status;
    host->store_is_inexact = inexact > 0;
    if (!bytes_fit(&host->bytes, &host->room, ROOM)) return code_refused("open", SBLOG_NODE_MEMORY, 0);
    return is_new ? begin_new(host, owner, incarnation) : begin_again(host, owner, incarnation);
}

static struct owner owner_of(const struct node_host *host, const char *hash) {
    return (struct owner){.cluster = host->cluster, .me = host->options->me, .image = hash, .durable = host->options->durable};
}

int node_begin(struct node_host *host) {
    char hash[HASH_TEXT];
    bool is_new;
    const struct options *options = host->options;
    const struct owner owner = owner_of(host, hash);
    int status = read_image(host, hash);
    if (status == STATUS_DONE) status = store_open(&host->store, options->store, &owner, false, &host->ids, &is_new);
    if (status == STATUS_DONE) status = read_state(host, is_new);
    if (status == STATUS_DONE) status = transport_open(&host->transport, host->cluster, options->me);
    if (status == STATUS_DONE) pace_begin(&host->pace, &host->transport, options->tick);
    if (status == STATUS_DONE) status = metrics_open(&host->metrics, &options->metrics);
    if (status == STATUS_DONE) status = privileges_drop(options, host->cluster, &host->store);
    if (status == STATUS_DONE) status = begin_life(host, &owner, is_new);
    return status == STATUS_DONE ? membership_join(options, &owner, &host->store, &host->ids, &host->transport, &host->metrics) : status;
}

int node_look(struct node_host *host) {
    char hash[HASH_TEXT];
    bool is_new;
    const struct options *options = host->options;
    const struct owner owner = owner_of(host, hash);
    int image = read_image(host, hash), status = image;
    int store = image == STATUS_DONE ? store_open(&host->store, options->store, &owner, true, &host->ids, &is_new) : image;
    status_first(&status, store);
    if (store == STATUS_DONE) status_first(&status, read_state(host, is_new));
    status_first(&status, transport_look(host->cluster, options->me));
    status_first(&status, address_look(&options->metrics, SOCK_STREAM));
    status_first(&status, privileges_look(options));
    if (image == STATUS_DONE) status_first(&status, store == STATUS_DONE ? begin_life(host, &owner, is_new) : open_new(host, &owner));
    return status;
}

int node_reopen(struct node_host *host) {
    char hash[HASH_TEXT];
    bool is_new = true;
    const struct owner owner = owner_of(host, hash);
    int status = read_image(host, hash);
    if (status == STATUS_DONE) status = store_open(&host->store, host->options->store, &owner, true, &host->ids, &is_new);
    if (status == STATUS_DONE && !is_new) status = begin_life(host, &owner, false);
    if (status != STATUS_DONE || host->is_resumed) return status;
    report("%s: the process isn't suspended: SIGTERM suspends one that is up", host->store.path);
    return STATUS_STORE;
}
