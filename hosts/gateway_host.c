#include "gateway_host.h"

#include "gateway_state.h"
#include "membership.h"
#include "report.h"

#include <sblog.h>
#include <stdlib.h>

/* Packets and outputs of a turn; inputs of a process without a number, from which on no request is read; bytes of records after
   which the store is written anew. */
enum { TURN = 1024, AHEAD = 1024, BEHIND = 1 << 24 };

/* Whether inputs may be handed in: so many may run ahead of the processes. */
static bool may_read(const struct gateway_host *host) {
    for (int p = 1; p <= host->cluster->count; p++)
        if (counts_waiting(&host->counts, p) >= AHEAD) return false;
    return host->answers.count < ANSWERS_LIMIT && host->turns.count < TURNS_LIMIT;
}

/* An input that says which SSN it is to have is logged once, whatever the program sends again. */
static void input(struct gateway_host *host, struct client *client, const struct request *request) {
    uint64_t *last = &host->last[request->process], ssn = request->ssn;
    uint32_t code = ssn > *last + 1 ? REFUSAL_SSN : SBLOG_GATEWAY_DONE;
    bool is_new = code == SBLOG_GATEWAY_DONE && (ssn == 0 || ssn > *last);
    if (is_new) code = sblog_gateway_input(&host->gateway, (uint8_t)request->process, request->payload, request->size, &ssn);
    struct answer *answer = answers_add(&host->answers, client, request, code);
    if (code != SBLOG_GATEWAY_DONE) return;
    answer->number = ssn;
    if (!is_new) return;
    counts_input(&host->counts, request->process, ssn);
    *last = answer->number = numbers_input(&host->ids.before, request->process, ssn);
}

/* One program alone takes outputs, while it is there: first those that nobody has taken. */
static void take_outputs(struct gateway_host *host, struct client *client, const struct request *request) {
    struct client *other = clients_consumer(&host->clients);
    if (other && other != client && client_is_gone(other)) {
        other->takes_outputs = false;
        other = NULL;
    }
    if (other && other != client) answers_add(&host->answers, client, request, REFUSAL_OTHER);
    if (other) return;
    client->takes_outputs = true;
    host->waiting.printed = 0;
}

static void taken(struct gateway_host *host, struct client *client, const struct request *request) {
    enum refusal why = client->takes_outputs ? REFUSAL_NONE : REFUSAL_NO_CONSUMER;
    if (why == REFUSAL_NONE && !outputs_take(&host->waiting, request->process, request->ssn)) why = REFUSAL_NO_OUTPUT;
    if (why != REFUSAL_NONE) answers_add(&host->answers, client, request, why);
}

static void obey(struct gateway_host *host, struct client *client, const struct request *request) {
    switch (request->verb) {
    case VERB_INPUT: input(host, client, request); return;
    case VERB_LOGGED: answers_add(&host->answers, client, request, REFUSAL_NONE)->number = host->last[request->process]; return;
    case VERB_OUTPUT: take_outputs(host, client, request); return;
    case VERB_TAKEN: taken(host, client, request); return;
    case VERB_REFUSED: answers_add(&host->answers, client, request, request->why); return;
    case VERB_NONE: return;
    }
}

static void read_requests(struct gateway_host *host, struct client *client) {
    struct request request;
    if (!may_read(host)) return;
    client_read(client, &host->watch);
    while (may_read(host) && client_request(client, host->cluster, &request)) {
        size_t answers = host->answers.count;
        obey(host, client, &request);
        host->faulty += refusal_ends(request.why);
        if (host->answers.count == answers) client->promised--; /* it has no answer */
    }
}

/* What bundles tell the pace counts once it is durable. */
static int receive(struct gateway_host *host) {
    int count = 0, from, most = host->turns.count < TURNS_LIMIT ? TURN : 0;
    struct packets packets;
    while (count < most && transport_receive(&host->transport, &packets, &from)) {
        sblog_tally tally = {0};
        sblog_gateway_receive_all(&host->gateway, packets.at, packets.size, &tally);
        transport_refuses(&host->transport, packets, tally.refused);
        pace_read(&host->pace, from, packets, &host->heard);
        count += (int)(tally.taken + tally.refused + tally.lost);
    }
    return count;
}

/* Outputs are handed out while a program takes them; whether there may be more. */
static bool hand_out(struct gateway_host *host) {
    struct outputs *waiting = &host->waiting;
    bool is_wanted = clients_consumer(&host->clients) != NULL;
    for (int count = 0; is_wanted; count++) {
        if (count == TURN || outputs_are_full(waiting)) return true;
        struct output *next = outputs_place(waiting);
        if (!next) return true;
        uint32_t code = sblog_gateway_output(&host->gateway, &next->process, &next->ssn, next->payload, sizeof next->payload,
                                             &next->size);
        if (code != SBLOG_GATEWAY_DONE) return false;
        next->ssn = numbers_output(&host->ids.before, next->process, next->ssn);
        outputs_add(waiting);
    }
    return false;
}

/* Packets that may go when the turn is durable. Those for which there is no memory are lost. */
static void take_packets(struct gateway_host *host, struct turn *turn) {
    size_t size;
    uint8_t to;
    uint64_t count;
    while (sblog_gateway_take_all(&host->gateway, host->packets, sizeof host->packets, &size, &to, &count) == SBLOG_GATEWAY_DONE)
        if (!turn_sends(turn, to, (struct packets){host->packets, size})) host->transport.lost += count;
}

/* What depends on this turn waits until that is durable. */
static int wait_for_disk(struct gateway_host *host) {
    struct answers *answers = &host->answers;
    struct turn *turn = turn_new(0);
    if (!turn || !bytes_add(&turn->answers, answers->all, answers->count * sizeof *answers->all))
        return code_refused("turn", SBLOG_GATEWAY_MEMORY, 0);
    answers->count = 0;
    turn->heard = host->heard;
    host->heard = (struct bytes){0};
    turn->outputs = host->waiting.count - host->waiting.written;
    host->waiting.written = host->waiting.count;
    take_packets(host, turn);
    turn->until = gateway_store_confirm(&host->store, !turn_is_empty(turn));
    if (turn_is_empty(turn)) turn_end(turn);
    else turns_put(&host->turns, turn);
    return STATUS_DONE;
}

/* All that happened in this turn is one record: so an output that was handed out is durable before it is printed. If few came and nothing
   else waits, nothing is gained by going on meanwhile. */
static int commit(struct gateway_host *host) {
    size_t size;
    bool is_alone = host->turns.count == 0 && host->came <= FEW;
    uint32_t code = gateway_bytes(host, sblog_gateway_changes, &size);
    if (code != SBLOG_GATEWAY_DONE) return code_refused("changes", code, 0);
    counts_take(&host->counts, host->bytes, size);
    enum sync sync = size == 0 ? SYNC_NONE : is_alone ? SYNC_NOW : SYNC_SOON;
    int status = gateway_store_append(&host->store, host->bytes, size, &host->waiting, sync);
    if (status == STATUS_DONE) status = wait_for_disk(host);
    outputs_forget(&host->waiting);
    bool is_long = host->store.behind > BEHIND && host->store.behind > host->store.whole;
    return status == STATUS_DONE && is_long ? gateway_write_whole(host) : status;
}

/* What is durable goes out, in its order. */
static int go_on(struct gateway_host *host) {
    uint64_t synced, now = clock_now();
    int status = gateway_store_synced(&host->store, &synced);
    struct turn *turn;
    while (status == STATUS_DONE && (turn = turns_take(&host->turns, synced))) {
        turn_answers(turn, host->cluster, !host->options->listen.where);
        turn_goes(turn, &host->pace, now);
        outputs_are_stored(&host->waiting, turn->outputs);
        if (turn->is_tick) host->has_tick = false;
        turn_end(turn);
    }
    return status;
}

/* On a pipe nobody says what was taken: there a line that was written is taken, before the next is printed; a program that is killed
   in between prints that one line again. */
static int note_printed(struct gateway_host *host) {
    if (!outputs_take_printed(&host->waiting)) return STATUS_DONE;
    int status = gateway_store_append(&host->store, NULL, 0, &host->waiting, SYNC_NONE);
    outputs_forget(&host->waiting);
    return status;
}

/* Outputs are printed that are durable. */
static int print_outputs(struct gateway_host *host) {
    struct client *client = clients_consumer(&host->clients);
    struct outputs *waiting = &host->waiting;
    bool is_pipe = !host->options->listen.where;
    int status = STATUS_DONE;
    while (client && (is_pipe ? client_is_free(client) : client_has_room(client))) {
        if (is_pipe) status = note_printed(host);
        if (status != STATUS_DONE || waiting->printed == waiting->stored) break;
        const struct output *next = &waiting->all[waiting->printed++];
        output_print(next, host->cluster, client);
        if (is_pipe) client_write(client);
        host->outputs++;
    }
    if (client) client_write(client);
    return status;
}

/* What isn't answered goes again: inputs among it that may not be durable yet. */
static void tick(struct gateway_host *host, uint64_t now) {
    struct turn *turn = host->has_tick || now < pace_due(&host->pace) ? NULL : turn_new(0);
    if (!turn) return;
    turn->is_tick = host->has_tick = true;
    sblog_gateway_tick(&host->gateway);
    take_packets(host, turn);
    turn->until = gateway_store_confirm(&host->store, turn->packets.size > 0);
    turns_put(&host->turns, turn);
}

/* What depends on what is durable now. */
static int give_out(struct gateway_host *host) {
    int status = go_on(host);
    transport_serve(&host->transport);
    if (status == STATUS_DONE) status = clients_serve(&host->clients);
    return status == STATUS_DONE ? print_outputs(host) : status;
}

static int turn(struct gateway_host *host, bool *is_more) {
    const struct owner owner = gateway_owner(host);
    int status = go_on(host); /* what is durable goes before more is taken in */
    transport_serve(&host->transport);
    transport_reload(&host->transport);
    clients_welcome(&host->clients, &host->watch);
    for (int i = 0; i < CLIENTS_LIMIT && !signal_stop; i++) read_requests(host, &host->clients.all[i]);
    int received = receive(host);
    if (status == STATUS_DONE) status = membership_welcome(&owner, &host->folder, &host->ids, &host->transport);
    bool is_cut = hand_out(host);
    host->came = (size_t)received + host->answers.count;
    if (status == STATUS_DONE) status = commit(host);
    if (status != STATUS_DONE) return status;
    tick(host, clock_now());
    status = give_out(host);
    gateway_show(host);
    *is_more = received >= TURN || (may_read(host) && clients_have_requests(&host->clients)) || (is_cut && !outputs_are_full(&host->waiting));
    return status;
}

static void wait(struct gateway_host *host, bool is_more) {
    struct watch *watch = &host->watch;
    watch_begin(watch, is_more ? 0 : host->has_tick ? UINT64_MAX : pace_due(&host->pace));
    watch_file(watch, host->store.syncer.event, POLLIN);
    if (host->turns.count < TURNS_LIMIT) transport_watch(&host->transport, watch);
    metrics_watch(&host->metrics, watch);
    clients_watch(&host->clients, may_read(host), host->waiting.printed < host->waiting.stored, watch);
    watch_came(watch, host->came);
    watch_wait(watch);
    transport_learn(&host->transport, watch);
}

/* All that was asked for becomes durable, and what waits for that goes out; then what the outputs printed last leave to note. */
static int settle(struct gateway_host *host) {
    int status = give_out(host);
    while (status == STATUS_DONE && host->turns.count > 0) {
        struct watch watch;
        watch_begin(&watch, UINT64_MAX);
        watch_file(&watch, host->store.syncer.event, POLLIN);
        watch_wait(&watch);
        status = give_out(host);
    }
    return status == STATUS_DONE ? gateway_store_finish(&host->store) : status;
}

int gateway_run(const struct options *options, const struct cluster *cluster) {
    static struct gateway_host host;
    bool is_more;
    host.options = options;
    host.cluster = cluster;
    int status = options->looks ? gateway_look(&host) : gateway_begin(&host);
    if (status != STATUS_DONE || options->looks) return status;
    host.metrics.has_lines = options->status;
    while (status == STATUS_DONE && !signal_stop) {
        status = turn(&host, &is_more);
        if (status == STATUS_DONE && !signal_stop) wait(&host, is_more);
    }
    if (status == STATUS_DONE) status = settle(&host);
    gateway_store_rest(&host.store);
    if (status != STATUS_STORE) transport_finish(&host.transport);
    transport_close(&host.transport);
    metrics_close(&host.metrics);
    gateway_store_close(&host.store);
    clients_close(&host.clients);
    store_close(&host.folder);
    return status;
}
