/* bench/driving/driving.rattle through the static library: the same inputs, one at a time, each
   driven until nothing is left to do. Arguments: adder or relay, how many parts there are, and how
   many inputs a part has. It prints a line a part: how many calls were accepted in it, and the
   nanoseconds that they took. */
#define _POSIX_C_SOURCE 199309L
#include "../../examples/service/handlers.h"
#include "sblog.h"

#include <stdio.h>
#include <stdlib.h>
#include <string.h>
#include <time.h>

static void must(uint32_t code) {
    if (code == SBLOG_SESSION_DONE) return;
    fprintf(stderr, "code %u\n", code);
    exit(1);
}

static long long now(void) {
    struct timespec time;
    clock_gettime(CLOCK_MONOTONIC, &time);
    return time.tv_sec * 1000000000LL + time.tv_nsec;
}

int main(int argc, char **argv) {
    static const uint8_t payload[8] = {1};
    uint32_t adder = ADDER_SIZE, relay[2] = {RELAY_SIZE, ECHO_SIZE};
    sblog_session session = {0};
    if (argc != 4) return 2;
    if (!strcmp(argv[1], "adder")) must(sblog_session_open(ADDER, ADDER_SIZE, &adder, 1, &session));
    else must(sblog_session_open(RELAY_AND_ECHO, RELAY_SIZE + ECHO_SIZE, relay, 2, &session));
    uint32_t parts = atoi(argv[2]), inputs = atoi(argv[3]), feed = 0;
    for (uint32_t part = 0; part < parts; part++) {
        uint32_t calls = 0, ssn, accepted;
        long long start = now();
        for (uint32_t i = 0; i < inputs; i++) {
            must(sblog_session_input(&session, 1, feed++, payload, sizeof payload, &ssn));
            must(sblog_session_drive(&session, 100, &accepted));
            calls += accepted + 1;
        }
        printf("%u %lld\n", calls, now() - start);
    }
    must(sblog_session_close(&session));
    return 0;
}
