/* A gateway, a relay and an echo as three nodes in one program, over the static library: what is taken of one
   is handed to another at once. Arguments:

   speed MESSAGES        each driven until nothing is left to do, in a session and in nodes: two lines, nanoseconds
   batches MESSAGES SIZE the same in nodes, as many at once as SIZE says
   memory MESSAGES       a checkpoint of each node after 1,000 messages; a line a million: messages, KB at most since
                         the last one, nanoseconds a message
   restart REPLAYS       a node with a state of 8 bytes dies with so many messages behind its checkpoint: nanoseconds
                         until it is up again, of them in which its peers answered, and its length
   kept CHECKPOINTS      with states of 0 and of 1,024 bytes: the bytes of a checkpoint, KB at most, nanoseconds each */
#define _POSIX_C_SOURCE 199309L
#include "../../examples/service/handlers.h"
#include "sblog.h"

#include <stdio.h>
#include <stdlib.h>
#include <string.h>
#include <time.h>

enum { PAGE = 60000, TICK = 8, NUMBERS = 256, RECEIPTS = 65536, MOST = 1 << 23, EVERY = 1000, IN_A_SESSION = 5000 };

static const uint8_t *const RELAY = RELAY_AND_ECHO, *const ECHO = RELAY_AND_ECHO + RELAY_SIZE;

static const uint8_t payload[8] = {1};
static sblog_gateway gateway;
static sblog_node nodes[3];
static uint8_t buffer[MOST];
static unsigned long long shown;

static void must(uint32_t code, const char *what) {
    if (code == 0) return;
    fprintf(stderr, "%s: code %u\n", what, code);
    exit(1);
}

/* Time of the processor that this program had, in nanoseconds. */
static long long now(void) {
    struct timespec time;
    clock_gettime(CLOCK_PROCESS_CPUTIME_ID, &time);
    return time.tv_sec * 1000000000LL + time.tv_nsec;
}

static void open_node(int me, int n, const uint8_t *image, size_t size) {
    must(sblog_node_open(image, size, me, n, PAGE, TICK, NUMBERS, RECEIPTS, 0, &nodes[me]), "open");
}

static void open_all(void) {
    must(sblog_gateway_open(2, PAGE, TICK, &gateway), "open the gateway");
    open_node(1, 2, RELAY, RELAY_SIZE);
    open_node(2, 2, ECHO, ECHO_SIZE);
    shown = 0;
}

static void close_all(int n) {
    must(sblog_gateway_close(&gateway), "close the gateway");
    for (int me = 1; me <= n; me++) must(sblog_node_close(&nodes[me]), "close");
}

/* Takes what a party puts out, and hands it over; whether there was anything. */
static bool carry(int from) {
    size_t size;
    uint8_t to;
    bool any = false;
    uint32_t fault;
    for (;;) {
        uint32_t code = from ? sblog_node_take(&nodes[from], buffer, MOST, &size, &to)
                             : sblog_gateway_take(&gateway, buffer, MOST, &size, &to);
        if (code == 20) return any;
        must(code, "take");
        any = true;
        if (to == 0) {
            must(sblog_gateway_receive(&gateway, buffer, size, &fault), "receive");
        } else {
            must(sblog_node_receive(&nodes[to], buffer, size, &fault), "receive");
            while (sblog_node_work(&nodes[to]) == 0) {}
        }
    }
}

/* A host would make the changes durable here. */
static void keep_changes(void) {
    size_t size;
    must(sblog_gateway_changes(&gateway, buffer, MOST, &size), "changes");
}

/* Until nothing is left to do. */
static void run(int n) {
    size_t size;
    uint64_t ssn;
    uint8_t process;
    for (bool any = true; any;) {
        keep_changes();
        any = false;
        for (int party = 0; party <= n; party++) any |= carry(party);
        while (sblog_gateway_output(&gateway, &process, &ssn, buffer, MOST, &size) == 0) {
            shown++;
            any = true;
        }
    }
}

static void input(int count) {
    uint64_t ssn;
    for (int i = 0; i < count; i++) must(sblog_gateway_input(&gateway, 1, payload, sizeof payload, &ssn), "input");
}

static size_t checkpoint(int me) {
    size_t size;
    must(sblog_node_checkpoint(&nodes[me], buffer, MOST, &size), "checkpoint");
    must(sblog_node_saved(&nodes[me]), "saved");
    return size;
}

/* KB at most since this was called before. */
static long peak(void) {
    char line[128];
    long most = 0;
    FILE *status = fopen("/proc/self/status", "r");
    while (status && fgets(line, sizeof line, status)) sscanf(line, "VmHWM: %ld", &most);
    if (status) fclose(status);
    FILE *clear = fopen("/proc/self/clear_refs", "w");
    if (clear) {
        fputs("5", clear);
        fclose(clear);
    }
    return most;
}

static void want(unsigned long long messages) {
    if (shown != messages) fprintf(stderr, "%llu shown of %llu\n", shown, messages), exit(1);
}

static void in_sessions(int messages) {
    uint32_t lengths[2] = {RELAY_SIZE, ECHO_SIZE}, ssn, accepted;
    long long time = 0;
    for (int done = 0; done < messages; done += IN_A_SESSION) {
        sblog_session session = {0};
        must(sblog_session_open(RELAY_AND_ECHO, RELAY_SIZE + ECHO_SIZE, lengths, 2, &session), "open a session");
        long long start = now();
        for (int i = 0; i < IN_A_SESSION; i++) {
            must(sblog_session_input(&session, 1, i, payload, sizeof payload, &ssn), "input of a session");
            must(sblog_session_drive(&session, 100, &accepted), "drive");
        }
        time += now() - start;
        must(sblog_session_close(&session), "close a session");
    }
    printf("in a session: %d messages, %.0f ns a message\n", messages, (double)time / messages);
}

static void in_nodes(int messages, int at_once) {
    open_all();
    long long start = now();
    for (int done = 0; done < messages; done += at_once) {
        input(at_once);
        run(2);
        if (done / EVERY != (done + at_once) / EVERY)
            for (int me = 1; me <= 2; me++) checkpoint(me);
    }
    long long time = now() - start;
    want(messages);
    close_all(2);
    printf("nodes, %d at once: %d messages, %.0f ns a message\n", at_once, messages, (double)time / messages);
}

static void memory(long messages) {
    open_all();
    peak();
    for (long done = 0; done < messages; done += 1000000) {
        long long start = now();
        for (int i = 0; i < 1000; i++) {
            for (int j = 0; j < EVERY; j++) {
                input(1);
                run(2);
            }
            checkpoint(1);
            checkpoint(2);
            run(2);
        }
        printf("%ld messages: %ld KB, %.0f ns a message\n", done + 1000000, peak(), (double)(now() - start) / 1000000);
        fflush(stdout);
    }
    want(messages);
    close_all(2);
}

static void restart(int replays) {
    size_t size;
    uint32_t fault;
    sblog_standing standing;
    must(sblog_gateway_open(1, PAGE, TICK, &gateway), "open the gateway");
    open_node(1, 1, ADDER, ADDER_SIZE);
    must(sblog_node_checkpoint(&nodes[1], buffer, MOST, &size), "checkpoint");
    must(sblog_node_saved(&nodes[1]), "saved");
    uint8_t *kept = malloc(size);
    memcpy(kept, buffer, size);
    for (int i = 0; i < replays; i++) {
        input(1);
        run(1);
    }
    must(sblog_node_close(&nodes[1]), "close");
    long long start = now();
    must(sblog_node_revive(ADDER, ADDER_SIZE, kept, size, 2, PAGE, TICK, NUMBERS, RECEIPTS, 0, &nodes[1], &fault), "revive");
    run(1);
    long long time = now() - start;
    must(sblog_node_standing(&nodes[1], &standing), "standing");
    if (standing.stage != 0 || standing.length != (uint64_t)replays) fprintf(stderr, "not up again\n"), exit(1);
    printf("restart: %d messages to replay, %.3f ms\n", replays, time / 1e6);
    free(kept);
    close_all(1);
}

static void kept(int checkpoints, int state_len) {
    uint8_t image[ADDER_SIZE];
    memcpy(image, ADDER, ADDER_SIZE);
    image[4] = state_len & 255, image[5] = state_len >> 8;
    must(sblog_gateway_open(1, PAGE, TICK, &gateway), "open the gateway");
    open_node(1, 1, image, ADDER_SIZE);
    size_t size = 0;
    peak();
    long long time = 0;
    for (int i = 0; i < checkpoints; i++) {
        input(1);
        run(1);
        long long start = now();
        size = checkpoint(1);
        time += now() - start;
        run(1);
    }
    printf("a state of %d bytes: %zu bytes kept, %ld KB, %.0f ns a checkpoint\n", state_len, size, peak(), (double)time / checkpoints);
    close_all(1);
}

int main(int argc, char **argv) {
    long count = argc > 2 ? atol(argv[2]) : 0;
    if (count < 1) return 2;
    if (!strcmp(argv[1], "speed")) in_sessions(count), in_nodes(count, 1);
    else if (!strcmp(argv[1], "batches") && argc > 3) in_nodes(count, atoi(argv[3]));
    else if (!strcmp(argv[1], "memory")) memory(count);
    else if (!strcmp(argv[1], "restart")) restart(count);
    else if (!strcmp(argv[1], "kept")) kept(count, 8), kept(count, 1024);
    else return 2;
    return 0;
}
