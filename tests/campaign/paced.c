/* Whether all messages come to a peer, whatever is lost and however many are put out at once: a model of the library and of a peer that
   takes them in order, around the pace. And whether what isn't answered goes again later and later, by chance spread. paced */
#include "../../hosts/limits.h"
#include "../../hosts/pace.h"

#include <stdio.h>
#include <stdlib.h>
#include <string.h>

enum { MESSAGES = 6000, TICKS = 3000, PEER = 1, SIZE = sizeof(sblog_label), ONE = PACKETS_LENGTH + SIZE, MOST = 5 };

static struct {
    struct pace pace;
    uint64_t put_out, numbered, got, now; /* messages; the last ones that have a number, and that the peer has */
    int loss;                             /* of a hundred packets */
    bool has_news;                        /* the peer answered */
} model;

uint64_t clock_now(void) { return model.now; }

static bool is_lost(void) { return rand() % 100 < model.loss; }

/* Puts a packet, which in the model is its label, after the others. */
static void put(uint8_t *all, size_t *size, const sblog_label *label) {
    number_put(all + *size, SIZE, PACKETS_LENGTH);
    memcpy(all + *size + PACKETS_LENGTH, label, SIZE);
    *size += ONE;
}

/* So many messages from this SSN on. */
static struct packets deliveries(uint64_t ssn, uint64_t count) {
    static uint8_t all[MOST * ONE];
    size_t size = 0;
    for (uint64_t end = ssn + count; ssn < end; ssn++) put(all, &size, &(sblog_label){.kind = SBLOG_PACKET_DELIVERY, .to = PEER, .ssn = ssn});
    return (struct packets){all, size};
}

uint32_t sblog_packet_label(const uint8_t *packet, size_t packet_len, sblog_label *label, uint32_t *fault) {
    (void)packet_len, (void)fault;
    memcpy(label, packet, SIZE);
    return SBLOG_NODE_DONE;
}

/* The peer takes the next one, and says again what it has. */
void transport_send(struct transport *transport, int to, struct packets packets) {
    const uint8_t *packet;
    sblog_label label;
    (void)transport, (void)to;
    while (packets_next(&packets, &packet) > 0) {
        memcpy(&label, packet, SIZE);
        if (is_lost() || label.ssn > model.got + 1) continue;
        if (label.ssn == model.got + 1) model.got++;
        model.has_news |= !is_lost();
    }
}

/* What the peer has is heard, in the midst of what tells nothing, until nothing more comes of that. */
static void hear(void) {
    static struct bytes news;
    uint8_t all[3 * ONE];
    while (model.has_news && model.numbered < model.got) {
        size_t size = 0;
        model.has_news = false;
        put(all, &size, &(sblog_label){.kind = SBLOG_PACKET_NUMBER, .from = PEER, .ssn = model.numbered});
        model.numbered = model.got;
        put(all, &size, &(sblog_label){.kind = SBLOG_PACKET_NUMBER, .from = PEER, .ssn = model.numbered});
        put(all, &size, &(sblog_label){.kind = SBLOG_PACKET_ASK, .from = PEER});
        news.size = 0;
        pace_read(&model.pace, PEER, (struct packets){all, size}, &news);
        if (news.size > 0) pace_hear(&model.pace, &news, ++model.now);
    }
    model.has_news = false;
}

static void put_out(uint64_t count) {
    for (uint64_t some; count > 0 && model.put_out < MESSAGES; count -= some) {
        some = count < MOST ? count : MOST;
        if (some > MESSAGES - model.put_out) some = MESSAGES - model.put_out;
        pace_send(&model.pace, PEER, deliveries(model.put_out + 1, some), model.now);
        model.put_out += some;
    }
}

static void tick(void) {
    uint64_t ssn = model.numbered + 1;
    model.now += 1000000;
    pace_tick_begins(&model.pace, model.now);
    for (int place = 0; ssn <= model.put_out && place < TICK; ssn++, place++)
        pace_tick_sends(&model.pace, PEER, deliveries(ssn, 1), model.now);
}

static int run(int count, int loss, uint64_t burst) {
    static struct transport transport;
    static struct cluster cluster;
    cluster.count = count;
    transport.cluster = &cluster;
    memset(&model, 0, sizeof model);
    model.loss = loss;
    pace_begin(&model.pace, &transport, 5000);
    for (int ticks = 0; ticks < TICKS; ticks++) {
        put_out(burst);
        hear();
        if (model.numbered == MESSAGES) return 0;
        tick();
        hear();
    }
    fprintf(stderr, "%d processes, %d of 100 lost, %lu at once: stopped at %lu\n", count, loss, (unsigned long)burst,
            (unsigned long)model.numbered);
    return 1;
}

/* A message to a peer that is away: each pause is twice the one before, up to 32 times the first, and up to a quarter longer. */
static int spreads(void) {
    static struct transport transport;
    static struct cluster cluster;
    enum { SHORTEST = 5000, TRIES = 60, LONGEST = 32 };
    int longer = 0, wrong = 0;
    cluster.count = 1;
    transport.cluster = &cluster;
    memset(&model, 0, sizeof model);
    model.loss = 100;
    pace_begin(&model.pace, &transport, SHORTEST);
    pace_send(&model.pace, PEER, deliveries(1, 1), model.now);
    for (uint64_t tries = 0, pause = SHORTEST, last = 0; tries < TRIES; tries++) {
        uint64_t due = pace_due(&model.pace), took = due - model.now;
        wrong += took < pause || took > pause + pause / 4;
        longer += took - pause > pause / 8;
        wrong += tries > 6 && took == last;
        last = took;
        model.now = due;
        if (pause < LONGEST * SHORTEST) pause *= 2;
        pace_tick_begins(&model.pace, model.now);
        pace_tick_sends(&model.pace, PEER, deliveries(1, 1), model.now);
    }
    bool is_right = wrong == 0 && longer > TRIES / 4 && longer < TRIES * 3 / 4;
    if (!is_right) fprintf(stderr, "%d pauses are wrong, and %d of %d long\n", wrong, longer, TRIES);
    return !is_right;
}

int main(void) {
    static const uint64_t bursts[] = {10, 96, 97, 300, 2049, 3000, MESSAGES};
    int wrong = spreads();
    srand(1);
    for (int count = 1; count <= PROCESS_LIMIT; count += 1 + count / 2)
        for (int loss = 0; loss <= 20; loss += 10)
            for (size_t i = 0; i < sizeof bursts / sizeof *bursts; i++) wrong += run(count, loss, bursts[i]);
    return wrong > 0;
}
