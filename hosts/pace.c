#include "pace.h"

#include "limits.h"

#include <string.h>

/* The least window; how often the pause is doubled; microseconds; messages that wait; bytes before these that are given back; what a
   spread counts, and the greatest one. */
enum { LEAST_WINDOW = 8, DOUBLES = 5, SOON = 1000, HELD_LIMIT = 2048, STALE = 1 << 16, WHOLE = 1024, QUARTER = WHOLE / 4 };

/* What comes before a message that waits. */
struct waiting {
    uint64_t ssn;
    size_t size;
};

/* What packets of a peer tell of its flow: the last SSN that it has, and the last number that it acknowledges; 0 for none. */
struct news {
    int from;
    uint64_t answered, acknowledged;
};

/* Puts a copy at the end; false if there is no room or no memory. */
static bool hold(struct held *held, uint64_t ssn, struct packets message) {
    struct bytes *bytes = &held->bytes;
    const struct waiting head = {ssn, message.size};
    if (held->from > STALE && held->from > bytes->size / 2) {
        bytes->size -= held->from;
        memmove(bytes->at, bytes->at + held->from, bytes->size);
        held->from = 0;
    }
    if (held->count == HELD_LIMIT || !bytes_fit(&bytes->at, &bytes->room, bytes->size + sizeof head + message.size)) return false;
    bytes_add(bytes, &head, sizeof head);
    bytes_add(bytes, message.at, message.size);
    held->count++;
    return true;
}

/* The first one, and that it waits no more. */
static struct packets held_first(const struct held *held, uint64_t *ssn) {
    struct waiting head;
    const uint8_t *at = held->bytes.at + held->from;
    memcpy(&head, at, sizeof head);
    *ssn = head.ssn;
    return (struct packets){at + sizeof head, head.size};
}

static void held_drop(struct held *held, size_t size) {
    held->from += sizeof(struct waiting) + size;
    if (--held->count == 0) held->from = held->bytes.size = 0;
}

/* The next number of a sequence that the clock began (xorshift of 64 bits). */
static uint64_t draw(struct pace *pace) {
    pace->chance ^= pace->chance << 13;
    pace->chance ^= pace->chance >> 7;
    pace->chance ^= pace->chance << 17;
    return pace->chance;
}

uint64_t pace_spread(struct pace *pace, uint64_t pause) { return pause + pause * (draw(pace) % QUARTER) / WHOLE; }

void pace_begin(struct pace *pace, struct transport *transport, uint64_t shortest) {
    memset(pace, 0, sizeof *pace);
    pace->transport = transport;
    pace->shortest = shortest;
    pace->longest = LONGEST_PAUSE * shortest;
    pace->chance = clock_now() | 1;
    pace->most = NUMBERS * 3 / 4; /* a quarter is for those on their way */
    uint64_t share = pace->most / (uint64_t)transport->cluster->count;
    pace->least = share > LEAST_WINDOW ? share : LEAST_WINDOW;
    for (int p = 0; p <= transport->cluster->count; p++) pace->flows[p].window = pace->least;
}

/* What a packet is. One for whose label there is no memory is of no kind: it is sent at once, and nothing is learned from it. */
static sblog_label label_of(const uint8_t *packet, size_t size) {
    sblog_label label = {0};
    uint32_t fault;
    sblog_packet_label(packet, size, &label, &fault);
    return label;
}

static bool is_open(const struct flow *flow) { return flow->sent > flow->answered || flow->told > flow->acknowledged; }

static void opens(struct flow *flow, uint64_t now) {
    if (!is_open(flow)) flow->since = now;
}

static void timer_begins(struct timer *timer, uint64_t number, uint64_t now) {
    if (timer->number == 0) *timer = (struct timer){number, now};
}

/* Whether the answer is there; then nothing is timed any more. */
static bool timer_ends(struct timer *timer, uint64_t number) {
    bool is_over = timer->number > 0 && number >= timer->number;
    if (is_over) timer->number = 0;
    return is_over;
}

static void is_sent(struct flow *flow, uint64_t ssn, uint64_t now) {
    opens(flow, now);
    if (ssn <= flow->sent) return;
    flow->sent = ssn;
    timer_begins(&flow->message, ssn, now);
    timer_begins(&flow->shown, ssn, now);
}

static void is_told(struct flow *flow, uint64_t number, uint64_t now) {
    opens(flow, now);
    if (number <= flow->told) return;
    flow->told = number;
    timer_begins(&flow->number, number, now);
}

/* The first message of a tick is the first one that has no number: so if the peer seemed to have it, an answer was lost. */
static void learn_from_tick(struct flow *flow, uint64_t ssn, uint64_t now) {
    if (flow->again == 0) {
        opens(flow, now);
        flow->is_late |= ssn <= flow->answered;
        flow->answered = ssn - 1;
    }
    if (++flow->again == TICK && ssn > flow->newest) flow->refill = ssn;
}

/* A message waits, if it doesn't already. If it can't, or one before it couldn't, a tick brings both once those before are answered. */
static void waits(struct flow *flow, uint64_t ssn, struct packets message, bool is_of_tick) {
    bool is_next = is_of_tick || flow->newest == 0 || ssn <= flow->newest + 1;
    if (is_of_tick && ssn <= flow->newest) return;
    if (!is_next || !hold(&flow->held, ssn, message)) flow->refill = flow->newest;
    else if (ssn > flow->newest) flow->newest = ssn;
}

/* Whether a message goes now. One beyond the window waits. One of a tick that was sent goes again if its answer is late. */
static bool message_goes(struct flow *flow, uint64_t ssn, struct packets message, bool is_of_tick, uint64_t now) {
    if (is_of_tick) learn_from_tick(flow, ssn, now);
    else if (!flow->is_known) flow->answered = ssn - 1;
    flow->is_known = true;
    bool is_again = is_of_tick && ssn <= flow->sent, is_beyond = !is_again && ssn > flow->answered + flow->window;
    if (is_beyond) waits(flow, ssn, message, is_of_tick);
    if (is_beyond || (is_again && !flow->is_late)) return false;
    if (ssn > flow->newest) flow->newest = ssn;
    is_sent(flow, ssn, now);
    return true;
}

static bool goes(struct flow *flow, const sblog_label *label, struct packets packet, bool is_of_tick, uint64_t now) {
    switch (label->kind) {
    case SBLOG_PACKET_DELIVERY: return message_goes(flow, label->ssn, packet, is_of_tick, now);
    case SBLOG_PACKET_RESTORED: flow->is_back = true; return true; /* the answer of its Resume */
    case SBLOG_PACKET_NUMBER:
        is_told(flow, label->number, now);
        if (is_of_tick && label->number <= flow->acknowledged) flow->acknowledged = label->number - 1;
        return true;
    default: return true;
    }
}

/* Packets of one length that follow each other. If the first and the last are as far apart by their SSNs as by their places, they tell
   what those between are. */
struct stretch {
    size_t size, count;
    sblog_label first, last;
    bool is_even;
};

static struct stretch stretch_of(struct packets packets) {
    struct stretch stretch = {0};
    const uint8_t *packet = NULL, *first, *last;
    stretch.size = packets_next(&packets, &packet);
    first = packet;
    do {
        last = packet;
        stretch.count++;
    } while (packets_next(&packets, &packet) == stretch.size);
    stretch.first = label_of(first, stretch.size);
    stretch.last = stretch.count > 1 ? label_of(last, stretch.size) : stretch.first;
    bool is_of_one_kind = stretch.first.kind == stretch.last.kind, has_ssn = stretch.first.kind != SBLOG_PACKET_ACKNOWLEDGEMENT;
    stretch.is_even = is_of_one_kind && (!has_ssn || stretch.last.ssn - stretch.first.ssn == stretch.count - 1);
    return stretch;
}

static sblog_label label_in(const struct stretch *stretch, size_t place, const uint8_t *packet) {
    if (place + 1 == stretch->count) return stretch->last;
    sblog_label label = stretch->first;
    if (place > 0 && !stretch->is_even) return label_of(packet, stretch->size);
    label.ssn += place;
    return label;
}

/* Those that go and follow each other go together. */
static void send_on(struct pace *pace, int to, struct packets packets, bool is_of_tick, uint64_t now) {
    struct packets going = {packets.at, 0}, rest = packets;
    struct stretch stretch = {0};
    const uint8_t *packet;
    if (to > pace->transport->cluster->count) return;
    for (size_t size, place = 0; (size = packets_next(&rest, &packet)) > 0; packets = rest, place++) {
        if (place == stretch.count) {
            stretch = stretch_of(packets);
            place = 0;
        }
        const sblog_label label = label_in(&stretch, place, packet);
        const struct packets one = {packets.at, PACKETS_LENGTH + size};
        if (goes(&pace->flows[to], &label, one, is_of_tick, now)) {
            going.size += one.size;
            continue;
        }
        transport_send(pace->transport, to, going);
        going = (struct packets){rest.at, 0};
    }
    transport_send(pace->transport, to, going);
}

void pace_send(struct pace *pace, int to, struct packets packets, uint64_t now) { send_on(pace, to, packets, false, now); }

void pace_tick_sends(struct pace *pace, int to, struct packets packets, uint64_t now) { send_on(pace, to, packets, true, now); }

/* While messages wait, a window of answers makes the window one larger. */
static void grow(const struct pace *pace, struct flow *flow, uint64_t answers) {
    if (flow->held.count == 0 || flow->window >= pace->most) return;
    flow->grown += answers;
    if (flow->grown < flow->window) return;
    flow->grown = 0;
    flow->window++;
}

/* How long an answer took goes into what is usual by an eighth, and how far off that was by a quarter. */
static void learn(struct flow *flow, uint64_t took) {
    uint64_t off = took > flow->usual ? took - flow->usual : flow->usual - took;
    bool is_first = flow->usual == 0;
    flow->spare = is_first ? took / 2 : flow->spare - flow->spare / 4 + off / 4;
    flow->usual = is_first ? took : flow->usual - flow->usual / 8 + took / 8;
}

static void is_answered(struct pace *pace, struct flow *flow, uint64_t ssn, uint64_t now) {
    if (ssn > flow->answered) {
        grow(pace, flow, ssn - flow->answered);
        flow->answered = ssn;
    }
    if (timer_ends(&flow->shown, ssn)) histogram_add(&pace->took, now - flow->shown.since);
    if (timer_ends(&flow->message, ssn)) learn(flow, now - flow->message.since);
}

static void is_acknowledged(struct flow *flow, uint64_t number, uint64_t now) {
    if (number > flow->acknowledged) flow->acknowledged = number;
    if (timer_ends(&flow->number, number)) learn(flow, now - flow->number.since);
}

static void send_held(struct pace *pace, int to, uint64_t now) {
    struct flow *flow = &pace->flows[to];
    while (flow->held.count > 0) {
        uint64_t ssn;
        const struct packets first = held_first(&flow->held, &ssn);
        if (ssn > flow->answered + flow->window) return;
        if (ssn > flow->answered) {
            is_sent(flow, ssn, now);
            transport_send(pace->transport, to, first);
        }
        held_drop(&flow->held, first.size);
    }
}

/* Of each kind the last one tells most. So the last ones are looked at, until all that is open was answered. */
void pace_read(const struct pace *pace, int from, struct packets packets, struct bytes *news) {
    static struct packets all[PACKETS_MOST];
    const struct flow *flow = &pace->flows[from];
    bool awaits_number = flow->sent > flow->answered, awaits_acknowledgement = flow->told > flow->acknowledged;
    size_t count = 0, size;
    const uint8_t *packet;
    struct news one = {.from = from};
    while ((size = packets_next(&packets, &packet)) > 0) all[count++] = (struct packets){packet, size};
    while (count > 0 && (awaits_number || awaits_acknowledgement)) {
        const struct packets *last = &all[--count];
        const sblog_label label = label_of(last->at, last->size);
        bool is_number = label.kind == SBLOG_PACKET_NUMBER || label.kind == SBLOG_PACKET_SAVED;
        if (is_number && awaits_number) one.answered = label.ssn;
        awaits_number &= !is_number;
        if (label.kind == SBLOG_PACKET_ACKNOWLEDGEMENT && awaits_acknowledgement) one.acknowledged = label.number;
        awaits_acknowledgement &= label.kind != SBLOG_PACKET_ACKNOWLEDGEMENT;
    }
    if (one.answered > 0 || one.acknowledged > 0) bytes_add(news, &one, sizeof one);
}

void pace_hear(struct pace *pace, const struct bytes *news, uint64_t now) {
    const struct news *all = (const struct news *)(const void *)news->at;
    for (size_t i = 0; i < news->size / sizeof *all; i++) {
        struct flow *flow = &pace->flows[all[i].from];
        is_answered(pace, flow, all[i].answered, now);
        is_acknowledged(flow, all[i].acknowledged, now);
        flow->since = now;
        flow->tries = 0;
        send_held(pace, all[i].from, now);
    }
}

/* What is open goes again when its answer takes far longer than usual (RFC 6298), then twice as long, and so on. */
static uint64_t pause_of(const struct pace *pace, const struct flow *flow) {
    uint64_t pause = flow->usual + 4 * flow->spare;
    if (pause < pace->shortest) pause = pace->shortest;
    pause <<= flow->tries;
    return pause < pace->longest ? pause : pace->longest;
}

/* Its answer is late: from now on open is what the tick puts out. */
static void expire(struct pace *pace, struct flow *flow, uint64_t now) {
    if (is_open(flow) && flow->tries < DOUBLES) flow->tries++;
    if (flow->sent > flow->answered) flow->window = pace->least; /* the peer may have too much to do */
    flow->answered = flow->sent;
    flow->acknowledged = flow->told;
    flow->message.number = flow->number.number = 0; /* an answer may be to either of two packets now */
    flow->since = now;
    flow->spread = draw(pace) % QUARTER;
    flow->is_back = false;
}

void pace_tick_begins(struct pace *pace, uint64_t now) {
    pace->last = now;
    for (int p = 0; p <= pace->transport->cluster->count; p++) {
        struct flow *flow = &pace->flows[p];
        flow->is_late = flow->is_back || (is_open(flow) && now >= flow->since + pause_of(pace, flow));
        if (flow->is_late) expire(pace, flow, now);
        flow->refill = 0;
        flow->again = 0;
    }
}

/* By chance a pause is somewhat longer. */
static uint64_t due(const struct pace *pace, const struct flow *flow) {
    if (flow->refill > 0 && flow->answered >= flow->refill) return pace->last + SOON;
    if (flow->is_back) return pace->last + pace->shortest;
    if (!is_open(flow)) return UINT64_MAX;
    uint64_t pause = pause_of(pace, flow);
    return flow->since + pause + pause * flow->spread / WHOLE;
}

uint64_t pace_due(const struct pace *pace) {
    uint64_t first = pace->last + pace->longest + pace->longest / 4;
    for (int p = 0; p <= pace->transport->cluster->count; p++) {
        uint64_t one = due(pace, &pace->flows[p]);
        if (one < first) first = one;
    }
    return first;
}
