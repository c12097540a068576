/* Opens two nodes of each image: the handler of one runs inside, by sblog_node_work, that of the other outside, as machine
   code that sblog_compile wrote. Handed the same packets, both have to come to the same state, and to put out the same. They
   aren't durable, since nothing is kept of them. */
#define _DEFAULT_SOURCE
#define SBLOG_CALLS_CODE
#include "sblog.h"

#include <stdio.h>
#include <stdlib.h>

enum { INPUTS = 500, PAGE = 60000, TICK = 8, NUMBERS = 256, RECEIPTS = 65536, PAYLOAD = 256, FILE_LIMIT = 1 << 16 };

static uint64_t seed = 1;

/* A number below a limit, by xorshift. */
static uint64_t below(uint64_t limit) {
    seed ^= seed << 13;
    seed ^= seed >> 7;
    seed ^= seed << 17;
    return seed % limit;
}

static void demand(int holds, const char *name, const char *what) {
    if (holds) return;
    fprintf(stderr, "%s: %s\n", name, what);
    exit(1);
}

static size_t read_file(const char *name, uint8_t *bytes) {
    FILE *file = fopen(name, "rb");
    demand(file != NULL, name, "can't be read");
    size_t size = fread(bytes, 1, FILE_LIMIT, file);
    fclose(file);
    return size;
}

/* The machine code of an image, in pages of its own. */
static sblog_native_code compiled(const char *name, const uint8_t *file, size_t file_len, size_t *size) {
    sblog_handle *handle = NULL;
    uint8_t none;
    demand(sblog_open(file, file_len, &handle) == SBLOG_DONE, name, "isn't opened");
    demand(sblog_compile(handle, &none, 0, size) == SBLOG_ROOM, name, "fits into no bytes");
    uint8_t *bytes = malloc(*size);
    demand(bytes != NULL && sblog_compile(handle, bytes, *size, size) == SBLOG_DONE, name, "isn't compiled");
    sblog_native_code code = sblog_map(bytes, *size);
    demand(code != NULL, name, "isn't mapped");
    free(bytes);
    sblog_close(handle);
    return code;
}

/* A gateway, and a process twice: worked inside and outside. */
struct twins {
    const char *name;
    sblog_gateway gateway;
    sblog_node inside, outside;
    sblog_native_code code;
    uint64_t calls, packets;
};

static uint8_t array[SBLOG_SPAN_ARRAY_SIZE], record[SBLOG_RECORD_SIZE];

static uint32_t done(struct twins *t, const sblog_job *job, size_t array_len, size_t record_len) {
    return sblog_node_done(&t->outside, job->incarnation, job->received, array, array_len, record, record_len);
}

/* What no call leaves is refused by its code, and the node stays as it was. */
static void refuse(struct twins *t, const sblog_job *job, size_t size) {
    static uint8_t was[SBLOG_RECORD_SIZE];
    sblog_standing before, after;
    sblog_job late = *job;
    size_t told = 0;
    late.received++;
    demand(sblog_node_standing(&t->outside, &before) == SBLOG_NODE_DONE, t->name, "doesn't stand");
    demand(sblog_node_job(&t->outside, array, size - 1, &told, &late) == SBLOG_NODE_ROOM && told == size, t->name, "fits into less");
    demand(done(t, &late, size, sizeof record) == SBLOG_NODE_UNREADY, t->name, "takes another call's");
    demand(done(t, job, size - 1, sizeof record) == SBLOG_NODE_LEFT, t->name, "takes less than the array");
    demand(done(t, job, size, sizeof record - 1) == SBLOG_NODE_LEFT, t->name, "takes less than the record");
    memcpy(was, record, sizeof record);
    /* nine messages, nine outputs, and called as another, by another, of more processes */
    static const struct { size_t at; uint64_t word; } wrong[] = {{0, 9}, {8, 9}, {24, 2}, {32, 2}, {40, 3}};
    for (size_t i = 0; i < sizeof wrong / sizeof *wrong; i++) {
        memcpy(record + wrong[i].at, &wrong[i].word, 8);
        demand(done(t, job, size, sizeof record) == SBLOG_NODE_LEFT, t->name, "takes a wrong count or process");
        memcpy(record, was, sizeof record);
    }
    /* one message, to nobody, itself, a process that isn't there and one beyond a byte; and one of 257 bytes */
    static const uint64_t places[][2] = {{0, 8}, {1, 8}, {3, 8}, {258, 8}, {2, 257}, {2, UINT64_MAX}};
    for (size_t i = 0; i < sizeof places / sizeof *places; i++) {
        const uint64_t one = 1;
        memcpy(record, &one, 8);
        memcpy(record + 64, places[i], sizeof *places);
        demand(done(t, job, size, sizeof record) == SBLOG_NODE_LEFT, t->name, "takes a wrong message");
        memcpy(record, was, sizeof record);
    }
    demand(sblog_node_standing(&t->outside, &after) == SBLOG_NODE_DONE, t->name, "doesn't stand");
    demand(memcmp(&before, &after, sizeof before) == 0, t->name, "changes by what it refuses");
}

/* Both work until nothing is left to work on. */
static void work(struct twins *t) {
    sblog_job job;
    size_t size;
    uint32_t code;
    while (sblog_node_work(&t->inside) == SBLOG_NODE_DONE) continue;
    while ((code = sblog_node_job(&t->outside, array, sizeof array, &size, &job)) == SBLOG_NODE_DONE) {
        sblog_native_call_job(t->code, array, &job, record);
        if (t->calls % 100 == 0) refuse(t, &job, size);
        demand(done(t, &job, size, sizeof record) == SBLOG_NODE_DONE, t->name, "what it left isn't taken");
        t->calls++;
    }
    demand(code == SBLOG_NODE_ABSENT, t->name, "has another call");
    demand(done(t, &job, size, sizeof record) == SBLOG_NODE_ABSENT, t->name, "takes a call again");
}

/* Both put out the same packets; those for the gateway are handed to it. */
static void compare(struct twins *t) {
    static uint8_t one[PAGE], other[PAGE], states[2][1024];
    size_t one_len, other_len;
    uint8_t to, also;
    uint32_t code, fault = 0;
    while ((code = sblog_node_take(&t->inside, one, sizeof one, &one_len, &to)) == SBLOG_NODE_DONE) {
        demand(sblog_node_take(&t->outside, other, sizeof other, &other_len, &also) == SBLOG_NODE_DONE, t->name, "puts out fewer packets");
        demand(to == also && one_len == other_len && memcmp(one, other, one_len) == 0, t->name, "puts out another packet");
        if (to == 0) demand(sblog_gateway_receive(&t->gateway, one, one_len, &fault) == SBLOG_GATEWAY_DONE, t->name, "isn't understood");
        t->packets++;
    }
    demand(sblog_node_take(&t->outside, other, sizeof other, &other_len, &also) == code, t->name, "puts out more packets");
    demand(sblog_node_state(&t->inside, states[0], sizeof states[0], &one_len) == SBLOG_NODE_DONE, t->name, "has no state");
    demand(sblog_node_state(&t->outside, states[1], sizeof states[1], &other_len) == SBLOG_NODE_DONE, t->name, "has no state");
    demand(one_len == other_len && memcmp(states[0], states[1], one_len) == 0, t->name, "comes to another state");
}

/* What the gateway puts out for the process goes to both. */
static void hand(struct twins *t) {
    static uint8_t packet[PAGE];
    size_t size;
    uint8_t to;
    uint32_t fault = 0;
    while (sblog_gateway_take(&t->gateway, packet, sizeof packet, &size, &to) == SBLOG_GATEWAY_DONE) {
        if (to != 1) continue;
        demand(sblog_node_receive(&t->inside, packet, size, &fault) == SBLOG_NODE_DONE, t->name, "a packet isn't received");
        demand(sblog_node_receive(&t->outside, packet, size, &fault) == SBLOG_NODE_DONE, t->name, "a packet isn't received");
    }
}

static void run(const char *name) {
    static uint8_t file[FILE_LIMIT], payload[PAYLOAD], changes[FILE_LIMIT];
    size_t file_len = read_file(name, file), size, told;
    struct twins t = {.name = name};
    sblog_job job;
    uint64_t ssn;
    t.code = compiled(name, file, file_len, &size);
    demand(sblog_node_job(&t.outside, array, sizeof array, &told, &job) == SBLOG_NODE_HANDLE, name, "a closed node has a call");
    demand(sblog_gateway_open(2, PAGE, TICK, &t.gateway) == SBLOG_GATEWAY_DONE, name, "no gateway");
    demand(sblog_node_open(file, file_len, 1, 2, PAGE, TICK, NUMBERS, RECEIPTS, 0, &t.inside) == SBLOG_NODE_DONE, name, "isn't opened");
    demand(sblog_node_open(file, file_len, 1, 2, PAGE, TICK, NUMBERS, RECEIPTS, 0, &t.outside) == SBLOG_NODE_DONE, name, "isn't opened");
    for (int i = 0; i < INPUTS; i++) {
        size_t payload_len = below(2) ? below(PAYLOAD + 1) : 64, fresh;
        for (size_t b = 0; b < payload_len; b++) payload[b] = (uint8_t)below(below(2) ? 256 : 3);
        demand(sblog_gateway_input(&t.gateway, 1, payload, payload_len, &ssn) == SBLOG_GATEWAY_DONE, name, "an input isn't logged");
        for (int turn = 0; turn < 3; turn++) {
            hand(&t);
            work(&t);
            compare(&t);
        }
        demand(sblog_gateway_changes(&t.gateway, changes, sizeof changes, &fresh) == SBLOG_GATEWAY_DONE, name, "no changes");
    }
    demand(t.calls == INPUTS, name, "not each input was worked on");
    printf("%s: %llu calls outside, %llu packets as by sblog_node_work\n", name, (unsigned long long)t.calls, (unsigned long long)t.packets);
    sblog_unmap(t.code, size);
    sblog_node_close(&t.inside);
    sblog_node_close(&t.outside);
    sblog_gateway_close(&t.gateway);
}

int main(int count, char **names) {
    for (int i = 1; i < count; i++) run(names[i]);
    return 0;
}
