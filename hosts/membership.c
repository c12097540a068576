#include "membership.h"

#include "pace.h"
#include "report.h"

static int refused(const struct owner *owner, const struct store *store) {
    const char *name = owner->cluster->processes[owner->me].name;
    report("%s: the cluster has heard of %s with another store: this one is new, and that one is lost or elsewhere. Start it with "
           "that store; if that is lost, begin a new cluster, with new stores", store->path, name);
    return STATUS_STORE;
}

/* What the gateway said is answered. An answer to another store is of another life. */
static int hear(const struct owner *owner, const struct store *store, struct ids *ids, struct transport *transport) {
    struct greeting greeting;
    if (!transport_greeted(transport, &greeting) || !id_is(&greeting.store, &ids->stores[owner->me])) return STATUS_DONE;
    if (greeting.word == WORD_REFUSAL) return refused(owner, store);
    if (greeting.word == WORD_WELCOME) {
        ids->cluster = greeting.cluster;
        return store_write_identity(store, owner, ids);
    }
    greeting.word = WORD_JOIN;
    transport_greet(transport, 0, &greeting);
    return STATUS_DONE;
}

/* Bundles that come meanwhile are dropped: this process isn't of their cluster yet. */
static void wait(struct transport *transport, struct metrics *metrics, const char *name, uint64_t until) {
    struct watch watch;
    struct packets packets;
    int from;
    transport_reload(transport);
    transport_serve(transport);
    watch_begin(&watch, until);
    transport_watch(transport, &watch);
    metrics_watch(metrics, &watch);
    watch_wait(&watch);
    metrics_serve(metrics, &(struct view){.process = name, .stage = "joining"});
    while (transport_receive(transport, &packets, &from)) continue;
}

int membership_join(const struct options *options, const struct owner *owner, const struct store *store, struct ids *ids,
                    struct transport *transport, struct metrics *metrics) {
    const struct greeting hello = {.word = WORD_HELLO, .process = owner->me, .store = ids->stores[owner->me]};
    uint64_t pause = options->tick, next = 0, late = clock_now() + SECOND;
    int status = STATUS_DONE;
    while (status == STATUS_DONE && id_is_none(&ids->cluster) && !signal_stop) {
        uint64_t now = clock_now();
        if (now >= next) {
            transport_greet(transport, 0, &hello);
            next = now + pause;
            if (pause < LONGEST_PAUSE * options->tick) pause *= 2;
        }
        if (now >= late) {
            report_event(LEVEL_WARNING, "waiting", "the gateway doesn't answer yet: a process with a new store waits for it");
            late = UINT64_MAX;
        }
        wait(transport, metrics, owner->cluster->processes[owner->me].name, next);
        status = hear(owner, store, ids, transport);
    }
    transport_belongs(transport, &ids->cluster);
    return status;
}

/* Whether the store of a process is the one that it has in this cluster: the first one that joined. */
static int judge(const struct owner *owner, const struct store *store, struct ids *ids, struct greeting *greeting) {
    struct id *known = &ids->stores[greeting->process];
    greeting->word = WORD_WELCOME;
    if (id_is(known, &greeting->store)) return STATUS_DONE;
    if (id_is_none(known)) {
        *known = greeting->store;
        return store_write_identity(store, owner, ids);
    }
    greeting->word = WORD_REFUSAL;
    report_event(LEVEL_WARNING, "stranger", "%s came with another store than before: it is refused",
                 owner->cluster->processes[greeting->process].name);
    return STATUS_DONE;
}

int membership_welcome(const struct owner *owner, const struct store *store, struct ids *ids, struct transport *transport) {
    struct greeting greeting;
    while (transport_greeted(transport, &greeting)) {
        int status = STATUS_DONE;
        if (greeting.word == WORD_HELLO) {
            greeting.word = WORD_OFFER;
            greeting.cluster = ids->cluster;
        } else if (id_is(&greeting.cluster, &ids->cluster)) {
            status = judge(owner, store, ids, &greeting);
        } else {
            transport->foreign++;
            continue;
        }
        if (status != STATUS_DONE) return status;
        transport_greet(transport, greeting.process, &greeting);
    }
    return STATUS_DONE;
}
