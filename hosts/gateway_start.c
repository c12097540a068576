#include "gateway_state.h"

#include "limits.h"
#include "privileges.h"
#include "report.h"
#include "stored.h"
#include "succession.h"

#include <stdlib.h>
#include <string.h>
#include <sys/socket.h>

enum { ROOM = 1 << 16 };

uint32_t gateway_bytes(struct gateway_host *host, uint32_t (*call)(sblog_gateway *, uint8_t *, size_t, size_t *), size_t *size) {
    uint32_t code;
    while ((code = call(&host->gateway, host->bytes, host->room, size)) == SBLOG_GATEWAY_ROOM)
        if (!bytes_fit(&host->bytes, &host->room, *size)) return SBLOG_GATEWAY_MEMORY;
    return code;
}

int gateway_write_whole(struct gateway_host *host) {
    size_t size;
    uint32_t code = gateway_bytes(host, sblog_gateway_changes, &size);
    if (code == SBLOG_GATEWAY_DONE) code = gateway_bytes(host, sblog_gateway_store, &size);
    return code == SBLOG_GATEWAY_DONE ? gateway_store_replace(&host->store, host->bytes, size, &host->waiting)
                                     : code_refused("store", code, 0);
}

/* If a first life was killed before the store had its name, the store is the one that begins again; any other one lost its name,
   and stays. */
static int begin_new(struct gateway_host *host, const struct owner *owner, const struct bytes *whole, const struct bytes *changes) {
    size_t size;
    uint32_t code = sblog_gateway_open((uint8_t)host->cluster->count, PAGE, TICK, &host->gateway);
    if (code != SBLOG_GATEWAY_DONE) return code_refused("open", code, 0);
    if ((code = gateway_bytes(host, sblog_gateway_store, &size)) != SBLOG_GATEWAY_DONE) return code_refused("store", code, 0);
    bool is_new = !whole->at || (whole->size == size && !memcmp(whole->at, host->bytes, size));
    if (!is_new || changes->at || (host->waiting.count > 0 && !host->options->after)) {
        report("%s: a gateway's store is there, and the file identity is missing", host->folder.path);
        return STATUS_STORE;
    }
    int status = host->options->after ? succession_take(host) : STATUS_DONE;
    if (status == STATUS_DONE) status = gateway_write_whole(host);
    outputs_are_kept(&host->waiting);
    if (status == STATUS_DONE) status = id_draw(&host->ids.cluster);
    return status == STATUS_DONE ? store_write_identity(&host->folder, owner, &host->ids) : status;
}

static int begin_again(struct gateway_host *host, const struct bytes *whole, const struct bytes *changes) {
    int status = stored_revive(&host->folder, whole, changes, &host->gateway);
    return status == STATUS_DONE ? gateway_write_whole(host) : status;
}

struct owner gateway_owner(const struct gateway_host *host) {
    return (struct owner){.cluster = host->cluster, .me = 0, .durable = true};
}

/* The store that was written tells the SSN of each process's last input. */
static void learn_last(struct gateway_host *host) {
    struct stored all[PROCESS_LIMIT + 1];
    for (int p = stored_read(host->bytes, all); p > 0; p--) host->last[p] = numbers_input(&host->ids.before, p, all[p].logged);
}

/* Begins with what is stored. */
static int begin_life(struct gateway_host *host, bool is_new) {
    struct bytes whole = {0}, changes = {0};
    const struct owner owner = gateway_owner(host);
    int status = gateway_store_open(&host->store, &host->folder, &whole, &changes, &host->waiting);
    if (status == STATUS_DONE && !bytes_fit(&host->bytes, &host->room, ROOM)) status = code_refused("open", SBLOG_GATEWAY_MEMORY, 0);
    if (status == STATUS_DONE) status = is_new ? begin_new(host, &owner, &whole, &changes) : begin_again(host, &whole, &changes);
    bytes_end(&whole);
    bytes_end(&changes);
    if (status == STATUS_DONE) learn_last(host);
    return status;
}

int gateway_begin(struct gateway_host *host) {
    bool is_new;
    const struct options *options = host->options;
    const struct owner owner = gateway_owner(host);
    int status = store_open(&host->folder, options->store, &owner, false, &host->ids, &is_new);
    if (status == STATUS_DONE) status = succession_refuses(&host->folder);
    if (status == STATUS_DONE) status = transport_open(&host->transport, host->cluster, 0);
    if (status == STATUS_DONE) pace_begin(&host->pace, &host->transport, options->tick);
    if (status == STATUS_DONE) status = metrics_open(&host->metrics, &options->metrics);
    if (status == STATUS_DONE) status = clients_open(&host->clients, &options->listen);
    if (status == STATUS_DONE) status = privileges_drop(options, host->cluster, &host->folder);
    if (status == STATUS_DONE) status = begin_life(host, is_new);
    transport_belongs(&host->transport, &host->ids.cluster);
    return status;
}

int gateway_look(struct gateway_host *host) {
    bool is_new;
    const struct options *options = host->options;
    const struct owner owner = gateway_owner(host);
    int store = store_open(&host->folder, options->store, &owner, true, &host->ids, &is_new), status = store;
    if (status == STATUS_DONE) status = succession_refuses(&host->folder);
    status_first(&status, transport_look(host->cluster, 0));
    status_first(&status, address_look(&options->metrics, SOCK_STREAM));
    status_first(&status, address_look(&options->listen, SOCK_STREAM));
    status_first(&status, privileges_look(options));
    if (store == STATUS_DONE) status_first(&status, begin_life(host, is_new));
    return status;
}
