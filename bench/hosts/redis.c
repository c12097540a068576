/* The same over Redis streams: redis stage SOCKET FROM TO moves messages from a stream to the next one, each batch and its
   acknowledgements in one transaction; redis passes SOCKET FROM LAST COUNT AHEAD adds to the first stream and reads the last. */
#include "times.h"

#include <hiredis/hiredis.h>
#include <stdarg.h>

enum { BATCH = 512 };

static redisReply *heard(redisContext *redis) {
    redisReply *reply = NULL;
    if (redisGetReply(redis, (void **)&reply) != REDIS_OK) fails(redis->errstr);
    if (reply->type == REDIS_REPLY_ERROR) fails(reply->str);
    return reply;
}

/* Hears so many answers, of which nothing is wanted. */
static void hear(redisContext *redis, size_t count) {
    for (; count > 0; count--) freeReplyObject(heard(redis));
}

static redisContext *connection(const char *path) {
    redisContext *redis = redisConnectUnix(path);
    if (!redis || redis->err) fails("there is no Redis server");
    return redis;
}

static void begin_group(redisContext *redis, const char *stream) {
    redisReply *reply = redisCommand(redis, "XGROUP CREATE %s all $ MKSTREAM", stream);
    if (!reply) fails(redis->errstr);
    freeReplyObject(reply); /* it may be there */
}

static void add(redisContext *redis, const char *stream, const void *payload, size_t size) {
    redisAppendCommand(redis, "XADD %s MAXLEN ~ 20000 * m %b", stream, payload, size);
}

/* The messages that came, as pairs of an id and of a name with its payload; null if none did for a second. */
static redisReply *messages(redisContext *redis, const char *stream, redisReply **reply) {
    redisAppendCommand(redis, "XREADGROUP GROUP all me COUNT %d BLOCK 1000 STREAMS %s >", BATCH, stream);
    *reply = heard(redis);
    return (*reply)->type == REDIS_REPLY_ARRAY ? (*reply)->element[0]->element[1] : NULL;
}

static const redisReply *payload_of(const redisReply *message) { return message->element[1]->element[1]; }

static void acknowledge(redisContext *redis, const char *stream, const redisReply *message) {
    redisAppendCommand(redis, "XACK %s all %s", stream, message->element[0]->str);
}

static void move(redisContext *redis, const char *from, const char *to) {
    redisReply *reply, *all = messages(redis, from, &reply);
    if (all) {
        redisAppendCommand(redis, "MULTI");
        for (size_t i = 0; i < all->elements; i++) {
            const redisReply *payload = payload_of(all->element[i]);
            add(redis, to, payload->str, (size_t)payload->len);
            acknowledge(redis, from, all->element[i]);
        }
        redisAppendCommand(redis, "EXEC");
        hear(redis, 2 * all->elements + 2);
    }
    freeReplyObject(reply);
}

static void show(redisContext *redis, const char *last, struct times *times) {
    redisReply *reply, *all = messages(redis, last, &reply);
    if (!all) fails("nothing comes");
    for (size_t i = 0; i < all->elements; i++) {
        const redisReply *payload = payload_of(all->element[i]);
        times_show(times, payload->str, (size_t)payload->len);
        acknowledge(redis, last, all->element[i]);
    }
    hear(redis, all->elements);
    freeReplyObject(reply);
}

int main(int argc, char **argv) {
    if (argc != 5 && argc != 7) return 2;
    redisContext *redis = connection(argv[2]), *first = connection(argv[2]);
    const char *from = argv[3], *to = argv[4];
    begin_group(redis, argc == 5 ? from : to);
    while (argc == 5) move(redis, from, to);
    struct times times = times_begin(argv[5], argv[6]);
    while (!times_are_over(&times)) {
        size_t added = 0;
        for (uint8_t payload[SIZE]; times_may_send(&times); added++) {
            times_send(&times, payload);
            add(first, from, payload, SIZE);
        }
        hear(first, added); /* durable */
        show(redis, to, &times);
    }
    times_print(&times);
    return 0;
}
