#include "frame.h"

#include "bytes.h"
#include "checksum.h"
#include "limits.h"

#include <stdlib.h>
#include <string.h>

/* The places of the fields in a bundle's head, and the greatest count. */
enum { FROM = 4, TO = 5, COUNT = 6, CLUSTER = 8, PACKETS = 24, COUNT_SIZE = 2, MOST = 0xffff };

/* The places of those of a greeting. */
enum { WORD = 4, PROCESS = 5, ZEROS = 6, OF_CLUSTER = 8, OF_STORE = 24, CHECKSUM = 40 };

static const char BUNDLE[] = "SBB1", GREETING[] = "SBH1";
enum { MAGIC = 4 };

static struct frame *frame_new(const char *magic, size_t size, size_t room) {
    struct frame *frame = malloc(sizeof *frame + FRAME_LENGTH + room);
    if (!frame) return NULL;
    *frame = (struct frame){.size = FRAME_LENGTH + size, .room = FRAME_LENGTH + room};
    number_put(frame->bytes, size, FRAME_LENGTH);
    memset(frame->bytes + FRAME_LENGTH, 0, size);
    memcpy(frame->bytes + FRAME_LENGTH, magic, MAGIC);
    return frame;
}

struct frame *bundle_new(const struct id *cluster, int from, int to) {
    struct frame *bundle = frame_new(BUNDLE, PACKETS, PACKETS + PACKETS_LENGTH + PAGE);
    if (!bundle) return NULL;
    uint8_t *head = bundle->bytes + FRAME_LENGTH;
    head[FROM] = (uint8_t)from;
    head[TO] = (uint8_t)to;
    memcpy(head + CLUSTER, cluster->bytes, ID_BYTES);
    return bundle;
}

size_t bundle_fill(struct frame *bundle, struct packets *packets) {
    const uint8_t *from = packets->at, *packet;
    size_t room = bundle->room - bundle->size, count = 0;
    for (struct packets rest = *packets; bundle->count < MOST && packets_next(&rest, &packet) > 0; *packets = rest) {
        if ((size_t)(rest.at - from) > room) break;
        bundle->count++;
        count++;
    }
    size_t size = (size_t)(packets->at - from);
    memcpy(bundle->bytes + bundle->size, from, size);
    bundle->size += size;
    number_put(bundle->bytes, bundle->size - FRAME_LENGTH, FRAME_LENGTH);
    number_put(bundle->bytes + FRAME_LENGTH + COUNT, (uint64_t)bundle->count, COUNT_SIZE);
    return count;
}

/* Whether so many packets take just these bytes. */
static bool is_whole(struct packets packets, uint64_t count) {
    const uint8_t *packet;
    while (count > 0 && packets_next(&packets, &packet) > 0) count--;
    return count == 0 && packets.size == 0;
}

enum kind bundle_judge(const uint8_t *frame, size_t size, const struct id *cluster, const struct cluster *processes, int me,
                       struct packets *packets, int *from) {
    if (size <= PACKETS || memcmp(frame, BUNDLE, MAGIC) != 0) return KIND_BROKEN;
    if (memcmp(frame + CLUSTER, cluster->bytes, ID_BYTES) != 0) return KIND_FOREIGN;
    const struct packets all = {frame + PACKETS, size - PACKETS};
    bool is_ours = frame[FROM] <= processes->count && frame[FROM] != me && frame[TO] == me;
    if (!is_ours || !is_whole(all, number_at(frame + COUNT, COUNT_SIZE))) return KIND_BROKEN;
    *from = frame[FROM];
    *packets = all;
    return KIND_BUNDLE;
}

struct frame *greeting_new(const struct greeting *greeting) {
    struct frame *frame = frame_new(GREETING, GREETING_SIZE, GREETING_SIZE);
    if (!frame) return NULL;
    uint8_t *at = frame->bytes + FRAME_LENGTH;
    at[WORD] = (uint8_t)greeting->word;
    at[PROCESS] = (uint8_t)greeting->process;
    memcpy(at + OF_CLUSTER, greeting->cluster.bytes, ID_BYTES);
    memcpy(at + OF_STORE, greeting->store.bytes, ID_BYTES);
    number_put(at + CHECKSUM, checksum(0, at, CHECKSUM), GREETING_SIZE - CHECKSUM);
    return frame;
}

bool greeting_read(const uint8_t *frame, size_t size, struct greeting *greeting) {
    if (size != GREETING_SIZE || memcmp(frame, GREETING, MAGIC) != 0 || number_at(frame + ZEROS, 2) != 0) return false;
    if (number_at(frame + CHECKSUM, GREETING_SIZE - CHECKSUM) != checksum(0, frame, CHECKSUM)) return false;
    greeting->word = frame[WORD];
    greeting->process = frame[PROCESS];
    memcpy(greeting->cluster.bytes, frame + OF_CLUSTER, ID_BYTES);
    memcpy(greeting->store.bytes, frame + OF_STORE, ID_BYTES);
    bool is_known = greeting->word >= WORD_HELLO && greeting->word <= WORD_REFUSAL && !id_is_none(&greeting->store);
    return is_known && id_is_none(&greeting->cluster) == (greeting->word == WORD_HELLO);
}
