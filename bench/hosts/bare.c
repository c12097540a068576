/* The same way without nodes: a request on a NATS server to one program, which asks a second one, whose answer comes back. It
   prints how long each of so many requests took, in microseconds: bare URL COUNT */
#include <nats/nats.h>
#include <stdint.h>
#include <stdio.h>
#include <stdlib.h>
#include <time.h>

enum { TIMEOUT = 5000, SIZE = 64 };

static uint64_t now(void) {
    struct timespec at;
    clock_gettime(CLOCK_MONOTONIC, &at);
    return (uint64_t)at.tv_sec * 1000000 + (uint64_t)at.tv_nsec / 1000;
}

static void must(natsStatus status) {
    if (status == NATS_OK) return;
    fprintf(stderr, "%s\n", natsStatus_GetText(status));
    exit(6);
}

static natsConnection *connection(const char *url) {
    natsOptions *options;
    natsConnection *made;
    must(natsOptions_Create(&options));
    must(natsOptions_SetURL(options, url));
    must(natsOptions_SetSendAsap(options, true));
    must(natsConnection_Connect(&made, options));
    natsOptions_Destroy(options);
    return made;
}

static void echo(natsConnection *in, natsSubscription *subscription, natsMsg *message, void *none) {
    (void)subscription, (void)none;
    natsConnection_Publish(in, natsMsg_GetReply(message), natsMsg_GetData(message), natsMsg_GetDataLength(message));
    natsMsg_Destroy(message);
}

/* Asks over a connection of its own, since this one waits for the answer. */
static void relay(natsConnection *in, natsSubscription *subscription, natsMsg *message, void *out) {
    natsMsg *answer;
    must(natsConnection_Request(&answer, out, "bare.echo", natsMsg_GetData(message), natsMsg_GetDataLength(message), TIMEOUT));
    echo(in, subscription, message, NULL);
    natsMsg_Destroy(answer);
}

int main(int argc, char **argv) {
    if (argc != 3) return 2;
    natsConnection *first = connection(argv[1]), *second = connection(argv[1]), *outside = connection(argv[1]);
    natsConnection *between = connection(argv[1]);
    natsSubscription *relayed, *echoed;
    must(natsConnection_Subscribe(&relayed, first, "bare.relay", relay, between));
    must(natsConnection_Subscribe(&echoed, second, "bare.echo", echo, NULL));
    must(natsConnection_Flush(first));
    must(natsConnection_Flush(second));
    char payload[SIZE] = {0};
    for (long left = atol(argv[2]); left > 0; left--) {
        natsMsg *answer;
        uint64_t began = now();
        must(natsConnection_Request(&answer, outside, "bare.relay", payload, SIZE, TIMEOUT));
        printf("%llu\n", (unsigned long long)(now() - began));
        natsMsg_Destroy(answer);
    }
    return 0;
}
