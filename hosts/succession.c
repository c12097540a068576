#include "succession.h"

#include "limits.h"
#include "report.h"
#include "stored.h"

#include <inttypes.h>
#include <stdio.h>
#include <stdlib.h>
#include <string.h>

/* The cluster that ended, as its gateway's store has it. */
struct ended {
    struct store store;
    struct cluster cluster;
    struct ids ids;
};

int succession_refuses(const struct store *store) {
    char *name;
    int status = store_read_follower(store, &name);
    if (status != STATUS_DONE || !name) return status;
    report("%s: the cluster %s goes on where this one ended, so this gateway takes no more inputs", store->path, name);
    free(name);
    return STATUS_STORE;
}

/* Its processes, in words of the store's own: so the rest can be compared. */
static int read_names(struct ended *ended) {
    static const char LINE[] = "\nprocesses ";
    char *identity, *rest = NULL;
    int status = store_read_identity(&ended->store, &identity);
    char *names = identity ? strstr(identity, LINE) : NULL;
    if (names) names = strtok_r(names + strlen(LINE), "\n", &rest);
    for (char *name = names ? strtok_r(names, " ", &rest) : NULL; name && ended->cluster.count < PROCESS_LIMIT;
         name = strtok_r(NULL, " ", &rest))
        snprintf(ended->cluster.processes[++ended->cluster.count].name, NAME_LIMIT + 1, "%s", name);
    free(identity);
    return status;
}

/* Whose store it is, and that no third cluster has it. */
static int judge(struct ended *ended, const char *follower) {
    const struct owner owner = {.cluster = &ended->cluster, .me = 0, .durable = true};
    bool is_new;
    char *name = NULL;
    strcpy(ended->cluster.processes[0].name, "gateway");
    int status = read_names(ended);
    if (status == STATUS_DONE) status = store_judge(&ended->store, &owner, &ended->ids, &is_new);
    if (status == STATUS_DONE && is_new) {
        report("%s: the file identity is missing", ended->store.path);
        status = STATUS_STORE;
    }
    if (status == STATUS_DONE) status = store_read_follower(&ended->store, &name);
    if (status == STATUS_DONE && name && strcmp(name, follower) != 0) status = succession_refuses(&ended->store);
    free(name);
    return status;
}

/* Numbers go on by name. An input that its process hasn't taken would be lost. */
static int take_numbers(struct gateway_host *host, const struct ended *ended, const uint8_t *bytes) {
    struct stored all[PROCESS_LIMIT + 1];
    const struct numbers *before = &ended->ids.before;
    int status = STATUS_DONE;
    for (int q = stored_read(bytes, all); q > 0; q--) {
        const char *name = ended->cluster.processes[q].name;
        int p = cluster_find(host->cluster, name);
        if (all[q].untaken > 0) {
            report("%s: %" PRIu64 " inputs are under way to %s", ended->store.path, all[q].untaken, name);
            status = STATUS_UNDER_WAY;
        }
        host->ids.before.inputs[p] = numbers_input(before, q, all[q].logged);
        host->ids.before.outputs[p] = numbers_output(before, q, all[q].shown);
    }
    host->ids.before.inputs[0] = host->ids.before.outputs[0] = 0; /* of a process that isn't there any more */
    return status;
}

static int carry(struct gateway_host *host, const struct ended *ended, const struct output *output) {
    const char *name = ended->cluster.processes[output->process].name;
    int p = cluster_find(host->cluster, name);
    if (p == 0) {
        report("%s: nobody has taken an output of %s, and this cluster has no such process", ended->store.path, name);
        return STATUS_UNDER_WAY;
    }
    struct output *place = outputs_place(&host->waiting);
    if (!place) return store_lacks_memory(&host->folder);
    *place = *output;
    place->process = (uint8_t)p;
    outputs_add(&host->waiting);
    return STATUS_DONE;
}

/* First those that were handed out, then those that the library still has. */
static int carry_outputs(struct gateway_host *host, const struct ended *ended, const struct outputs *waiting, sblog_gateway *gateway) {
    struct output next;
    int status = STATUS_DONE;
    for (size_t i = 0; status == STATUS_DONE && i < waiting->count; i++) status = carry(host, ended, &waiting->all[i]);
    while (status == STATUS_DONE &&
           sblog_gateway_output(gateway, &next.process, &next.ssn, next.payload, sizeof next.payload, &next.size) == SBLOG_GATEWAY_DONE) {
        next.ssn = numbers_output(&ended->ids.before, next.process, next.ssn);
        status = carry(host, ended, &next);
    }
    return status;
}

/* What its log has: this changes nothing. */
static int read_log(struct gateway_host *host, const struct ended *ended) {
    struct store looked_at = ended->store;
    struct gateway_store log;
    struct bytes whole = {0}, changes = {0};
    struct outputs waiting = {0};
    sblog_gateway gateway = {0};
    uint8_t *bytes = NULL;
    looked_at.is_looked_at = true;
    int status = gateway_store_open(&log, &looked_at, &whole, &changes, &waiting);
    if (status == STATUS_DONE) status = stored_whole(&looked_at, &whole, &changes, &gateway, &bytes);
    if (status == STATUS_DONE) status = take_numbers(host, ended, bytes);
    if (status == STATUS_DONE) status = carry_outputs(host, ended, &waiting, &gateway);
    sblog_gateway_close(&gateway);
    free(bytes);
    free(waiting.places);
    bytes_end(&whole);
    bytes_end(&changes);
    return status;
}

static int take(struct gateway_host *host, bool looks) {
    static struct ended ended;
    const char *after = host->options->after, *where = strchr(after, '=') + 1;
    ended = (struct ended){0};
    snprintf(ended.cluster.name, sizeof ended.cluster.name, "%.*s", (int)(where - 1 - after), after);
    free(host->waiting.places);
    host->waiting = (struct outputs){0};
    int status = store_find(&ended.store, where, ended.cluster.name, 0, looks);
    if (status != STATUS_DONE) return status;
    status = ended.store.storage->claim(&ended.store);
    if (status == STATUS_DONE) status = judge(&ended, host->cluster->name);
    if (status == STATUS_DONE) status = read_log(host, &ended);
    if (status == STATUS_DONE) status = store_write_follower(&ended.store, host->cluster->name);
    store_close(&ended.store);
    return status;
}

/* A store that isn't there isn't made: it is looked at first. */
int succession_take(struct gateway_host *host) {
    int status = take(host, true);
    return status == STATUS_DONE && !host->options->looks ? take(host, false) : status;
}
