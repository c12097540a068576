#include "node_host.h"

#include "limits.h"
#include "node_state.h"
#include "report.h"
#include "suspension.h"
#include "text.h"
#include "tls.h"

#include <errno.h>
#include <inttypes.h>
#include <sblog.h>
#include <stdio.h>
#include <stdlib.h>
#include <string.h>

enum { TURN = 512, REPLAYS = 1024, LATE = 5 * SECOND }; /* messages of a turn; microseconds after which a way back is long */

/* A volatile node waits so many times as long as a checkpoint takes before it makes the next, but takes at most so many times the messages
   that the option says. */
enum { SHARE = 10, MORE_RARELY = 4 };

static const char *const STAGES[] = {"up", "busy", "frozen", "collecting", "replaying", "resuming"};

static const char *name_of(const struct node_host *host) { return host->cluster->processes[host->options->me].name; }

/* A checkpoint is made, is durable, and counts. Where it isn't the time, there is none; one that can't be stored ends the life. */
static int keep(struct node_host *host) {
    size_t size;
    uint64_t since = clock_now();
    uint32_t code = node_bytes(host, sblog_node_checkpoint, &size);
    if (code == SBLOG_NODE_UNREADY || code == SBLOG_NODE_MEMORY) return STATUS_DONE;
    if (code != SBLOG_NODE_DONE) return code_refused("checkpoint", code, 0);
    uint64_t made = clock_now();
    int status = slots_write(&host->slots, host->bytes, size);
    uint64_t now = clock_now();
    histogram_add(&host->syncs, now - made);
    if (status != STATUS_DONE) return status;
    host->next_checkpoint = now + SHARE * (now - since);
    host->has_written = true;
    host->checkpoints++;
    code = sblog_node_saved(&host->node);
    return code == SBLOG_NODE_DONE ? STATUS_DONE : code_refused("saved", code, 0);
}

/* A call that wants memory that isn't there is made again later, or its packet is lost; that is said once. */
static void lacks(struct node_host *host, uint32_t code) {
    if (code != SBLOG_NODE_MEMORY || host->wants_memory) return;
    host->wants_memory = true;
    report_event(LEVEL_WARNING, "memory", "there is no memory: packets are lost, and sent again");
}

/* The handler runs for as long as there is something to work on, at most so often. */
static uint32_t work(struct node_host *host, int most) {
    uint32_t code = SBLOG_NODE_DONE;
    for (int i = 0; i < most && code == SBLOG_NODE_DONE; i++) code = sblog_node_work(&host->node);
    lacks(host, code);
    return code;
}

/* Bundles that came together: each packet is received, and worked on before the next. */
static int receive(struct node_host *host) {
    int count = 0, from;
    struct packets packets;
    while (count < TURN && transport_receive(&host->transport, &packets, &from)) {
        sblog_tally tally = {0};
        sblog_node_receive_all(&host->node, packets.at, packets.size, &tally);
        if (tally.lost > 0) lacks(host, SBLOG_NODE_MEMORY);
        transport_refuses(&host->transport, packets, tally.refused);
        pace_read(&host->pace, from, packets, &host->heard);
        count += (int)(tally.taken + tally.refused + tally.lost);
    }
    return count;
}

/* Whether packets waited, and whom the next ones go to. */
static bool take_packets(struct node_host *host, int *to, struct packets *packets) {
    size_t size;
    uint8_t receiver;
    uint64_t count;
    uint32_t code = sblog_node_take_all(&host->node, host->packets, sizeof host->packets, &size, &receiver, &count);
    if (code != SBLOG_NODE_DONE) return false;
    *to = receiver;
    *packets = (struct packets){host->packets, size};
    return true;
}

static void put_out(struct node_host *host) {
    int to;
    uint64_t now = clock_now();
    struct packets packets;
    while (take_packets(host, &to, &packets)) pace_send(&host->pace, to, packets, now);
    pace_hear(&host->pace, &host->heard, now);
    host->heard.size = 0;
}

/* What anybody has of a durable process stays; of another one, what its checkpoint covers. */
static void tell_failures(const struct node_host *host, uint64_t covered) {
    if (host->options->durable)
        report_event(LEVEL_WARNING, "inexact", "failures met (exact is no): what anybody has of this process stays, since it is durable");
    else
        report_event(LEVEL_WARNING, "inexact", "failures met (exact is no): messages after the first %" PRIu64 " may be lost, though they "
                     "were acknowledged; it goes on, and CLUSTER.md says what to compare", covered);
}

static void tell_up(const sblog_standing *now, uint64_t took) {
    char sentence[256];
    const struct figure all[] = {
        {.name = "incarnation", .value = now->incarnation}, {.name = "length", .value = now->length},
        {.name = "covered", .value = now->base},            {.name = "microseconds", .value = took},
    };
    snprintf(sentence, sizeof sentence, "up in incarnation %" PRIu64 " with %" PRIu64 " messages, %" PRIu64 " of its checkpoint, after %.1f ms",
             now->incarnation, now->length, now->base, (double)took / 1000);
    report_figures("up", sentence, all, sizeof all / sizeof *all);
}

/* Whose answers it waits for, once, if the way back is long. */
static void tell_waits(struct node_host *host) {
    static struct text names;
    if (host->has_told_waits || clock_now() - host->started < LATE) return;
    host->has_told_waits = true;
    for (int p = 0; p <= host->cluster->count; p++)
        if (host->standing.waited_for >> p & 1) text_add(&names, " %s", host->cluster->processes[p].name);
    report_event(LEVEL_WARNING, "waiting", "it is %s, and not up yet: it waits for%s", STAGES[host->standing.stage],
                 names.size > 0 ? names.bytes : " nobody");
}

/* What changed since the last turn, for people. The store keeps the first life that isn't exact: a status. */
static int tell(struct node_host *host) {
    const sblog_standing *now = &host->standing;
    bool is_up = now->stage <= SBLOG_NODE_FROZEN;
    if (is_up && !host->was_up) tell_up(now, clock_now() - host->started);
    if (!is_up) tell_waits(host);
    int status = STATUS_DONE;
    if (host->was_exact && !now->exact) {
        tell_failures(host, now->base);
        if (!host->store_is_inexact) status = store_write_inexact(&host->store, now->incarnation);
        host->store_is_inexact = true;
    }
    host->was_up = is_up;
    host->was_exact = now->exact;
    return status;
}

enum { FIGURES = 19, NO_PEER = 1, FULL, LONG }; /* codes of helpers that refuse a send or an output */

static size_t figures(struct node_host *host, struct figure out[FIGURES]) {
    const sblog_standing *now = &host->standing;
    const struct figure all[FIGURES] = {
        {"length", now->length, NULL, "messages that the state has", false},
        {"covered", now->base, NULL, "messages that the durable checkpoint covers", false},
        {"incarnation", now->incarnation, NULL, "which life this is", false},
        {"stage", now->stage, STAGES[now->stage], "0 up, 1 busy, 2 frozen, 3 collecting, 4 replaying, 5 resuming", false},
        {"exact", now->exact, now->exact ? "yes" : "no", "1 where failures came one at a time as far as it knows", false},
        {"receipts", now->receipts, NULL, "messages behind the checkpoint", false},
        {"kept", now->entries, NULL, "messages kept for their receivers", false},
        {"packets", now->packets, NULL, "packets to be sent", false},
        {"replays", now->replays, NULL, "messages that are still to be replayed", false},
        {"waits", now->waited_for, NULL, "peers waited for, a bit each, 1 the gateway", false},
        {"checkpoints", host->checkpoints, NULL, "checkpoints that this life has stored", true},
        {"effects_no_peer", sblog_node_refused(&host->node, NO_PEER), NULL, "sends of the handler that were refused: to no other process", true},
        {"effects_full", sblog_node_refused(&host->node, FULL), NULL, "its sends and outputs that were refused: more than 8 of a call", true},
        {"effects_long", sblog_node_refused(&host->node, LONG), NULL, "its sends and outputs that were refused: above 256 bytes", true},
        {"refused", host->transport.refused, NULL, "times that bytes came that are no packet", true},
        {"broken", host->transport.broken, NULL, "times that something came that is no bundle", true},
        {"foreign", host->transport.foreign, NULL, "times that a bundle of another cluster came", true},
        {"strangers", tls_refused(), NULL, "connections by tls that were refused", true},
        {"lost", host->transport.lost, NULL, "packets that found no way", true},
    };
    memcpy(out, all, sizeof all);
    return FIGURES;
}

static void show(struct node_host *host) {
    struct figure all[FIGURES];
    size_t count = figures(host, all);
    metrics_show(&host->metrics, &(struct view){.process = name_of(host), .stage = STAGES[host->standing.stage], .is_ready = host->was_up,
                                                .figures = all, .count = count, .messages = &host->pace.took, .syncs = &host->syncs});
}

/* What isn't answered goes again. */
static void send_again(struct node_host *host, uint64_t now) {
    int to;
    struct packets packets;
    pace_tick_begins(&host->pace, now);
    lacks(host, sblog_node_tick(&host->node));
    while (take_packets(host, &to, &packets)) pace_tick_sends(&host->pace, to, packets, now);
}

/* When one that comes back asks again. Each answer brings the next question with it; but others than the one that is waited for may send, too. */
static uint64_t due(const struct node_host *host, uint64_t now, int received) {
    uint64_t asked = host->pace.last > host->started ? host->pace.last : host->started; /* a life begins with the first question */
    uint64_t next = now + host->pause, latest = asked + LONGEST_PAUSE / 4 * host->pause;
    if (host->next_tick == 0) return next;
    if (received == 0) return host->next_tick;
    return next < latest ? next : latest;
}

/* One that comes back asks again and again, less and less often while nothing comes; one that is up keeps a pace. */
static void tick(struct node_host *host, uint64_t now, int received) {
    bool is_up = host->standing.stage <= SBLOG_NODE_FROZEN, was_up = host->was_up;
    if (received > 0) host->pause = host->options->tick;
    if (!is_up) host->next_tick = due(host, now, received);
    else host->next_tick = was_up ? pace_due(&host->pace) : now;
    if (now < host->next_tick) return;
    send_again(host, now);
    if (host->pause < LONGEST_PAUSE * host->options->tick) host->pause *= 2;
    host->next_tick = is_up ? pace_due(&host->pace) : now + pace_spread(&host->pace, host->pause);
}

static bool is_time_to_keep(const struct node_host *host) {
    uint64_t receipts = host->standing.receipts, least = host->options->checkpoint_every, most = MORE_RARELY * least;
    if (host->standing.stage != SBLOG_NODE_UP) return false;
    if (host->options->durable) return receipts > 0;
    if (most > RECEIPTS) most = RECEIPTS;
    return receipts >= most || (receipts >= least && clock_now() >= host->next_checkpoint);
}

/* No packet goes out by a life that another one has followed, which a store elsewhere tells by refusing a write: it takes one first,
   if it took none in this turn. */
static int confirm(struct node_host *host) {
    bool is_due = store_is_remote(&host->store) && host->transport.queued != host->confirmed && !host->has_written;
    host->confirmed = host->transport.queued;
    host->has_written = false;
    return is_due ? store_confirm(&host->store) : STATUS_DONE;
}

/* One turn; whether there is more to do at once. */
static int turn(struct node_host *host, bool *is_more) {
    int received = receive(host), status = STATUS_DONE;
    host->came = (size_t)received;
    *is_more = work(host, REPLAYS) == SBLOG_NODE_DONE || received >= TURN;
    sblog_node_standing(&host->node, &host->standing);
    if (is_time_to_keep(host)) {
        put_out(host); /* what doesn't wait for it */
        if (!store_is_remote(&host->store)) transport_serve(&host->transport);
        status = keep(host);
        sblog_node_standing(&host->node, &host->standing);
    }
    if (status != STATUS_DONE) return status;
    put_out(host);
    tick(host, clock_now(), received);
    status = confirm(host);
    if (status != STATUS_DONE) return status;
    transport_serve(&host->transport);
    status = tell(host);
    show(host);
    return status;
}

/* A node that is up takes nothing more, and is suspended once its checkpoint covers all. Nothing is sent from then on. */
static int stop(struct node_host *host) {
    uint64_t stage = host->standing.stage;
    if (stage > SBLOG_NODE_FROZEN) {
        report_event(LEVEL_WARNING, "suspended", "it isn't suspended: it is %s; it will come back as after a kill", STAGES[stage]);
        return STATUS_DONE;
    }
    while (work(host, REPLAYS) == SBLOG_NODE_DONE) continue;
    int status = keep(host);
    if (status != STATUS_DONE) return status;
    put_out(host);
    status = confirm(host);
    if (status != STATUS_DONE) return status;
    transport_finish(&host->transport);
    return suspension_write(host);
}

static int run(struct node_host *host) {
    struct watch watch;
    bool is_more;
    int status;
    do {
        transport_reload(&host->transport);
        status = turn(host, &is_more);
        watch_begin(&watch, is_more || signal_stop ? 0 : host->next_tick);
        transport_watch(&host->transport, &watch);
        metrics_watch(&host->metrics, &watch);
        watch_came(&watch, host->came);
        watch_wait(&watch);
        transport_learn(&host->transport, &watch);
    } while (status == STATUS_DONE && !signal_stop);
    return status == STATUS_DONE ? stop(host) : status;
}

int node_run(const struct options *options, const struct cluster *cluster) {
    static struct node_host host;
    host.options = options;
    host.cluster = cluster;
    host.started = clock_now();
    host.pause = options->tick;
    host.was_exact = true;
    int status = options->looks ? node_look(&host) : node_begin(&host);
    if (status != STATUS_DONE || options->looks) return status;
    host.metrics.has_lines = options->status;
    status = run(&host);
    if (status != STATUS_DONE && status != STATUS_STORE) transport_finish(&host.transport);
    transport_close(&host.transport);
    metrics_close(&host.metrics);
    store_close(&host.store);
    return status;
}
