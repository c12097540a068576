/* A counter that outlives its process. Commands come line by line: "add NUMBER" adds it and answers
   the total, any other prints what was done so far. The argument says after how many commands the
   process is lost, again and again: never without one. It is back before the next command, and
   whoever types doesn't notice.

   The process is one of the session's, in this program's memory, and its loss is a call here. When this
   program ends or is killed, the session goes with it: the next run counts from 0. */
#include "handlers.h"
#include "sblog.h"

#include <stdio.h>
#include <stdlib.h>
#include <string.h>

/* More calls than one command leads to. */
enum { BUDGET = 1000 };

static void must(const char *what, uint32_t code) {
    if (code == SBLOG_SESSION_DONE) return;
    fprintf(stderr, "%s: code %u\n", what, code);
    exit(1);
}

/* Hands a number in, has it received, and reads the total. */
static uint64_t add(sblog_session *session, uint32_t feed, uint64_t value) {
    uint8_t payload[8], state[8];
    uint32_t ssn, calls;
    uint64_t total = 0;
    size_t size;
    for (int i = 0; i < 8; i++) payload[i] = value >> 8 * i & 0xff;
    must("input", sblog_session_input(session, 1, feed, payload, sizeof payload, &ssn));
    must("drive", sblog_session_drive(session, BUDGET, &calls));
    must("state", sblog_session_state(session, 1, state, sizeof state, &size));
    for (int i = 7; i >= 0; i--) total = total << 8 | state[i];
    return total;
}

/* Loses the process, and brings it back. */
static void lose(sblog_session *session) {
    uint32_t incarnation, kept, calls;
    must("crash", sblog_session_crash(session, 1, &incarnation));
    must("recover", sblog_session_recover(session, 1, &kept));
    must("drive", sblog_session_drive(session, BUDGET * (kept + 1), &calls));
}

static void trace(sblog_session *session) {
    uint8_t none[1];
    size_t size;
    sblog_session_trace(session, none, 0, &size);
    uint8_t *text = malloc(size + 1);
    if (!text) must("trace", SBLOG_SESSION_MEMORY);
    must("trace", sblog_session_trace(session, text, size, &size));
    fwrite(text, 1, size, stdout);
    free(text);
}

int main(int argc, char **argv) {
    uint32_t every = argc > 1 ? strtoul(argv[1], NULL, 10) : 0, command = 0, exact;
    uint32_t length = ADDER_SIZE;
    sblog_session session = {0};
    char line[128];
    must("open", sblog_session_open(ADDER, ADDER_SIZE, &length, 1, &session));
    while (fgets(line, sizeof line, stdin)) {
        command++;
        if (!strncmp(line, "add ", 4)) {
            uint64_t total = add(&session, command, strtoull(line + 4, NULL, 10));
            printf("total %llu\n", (unsigned long long)total);
        } else {
            trace(&session);
        }
        if (every && command % every == 0) lose(&session);
    }
    must("exact", sblog_session_exact(&session, &exact));
    puts(exact ? "exact" : "not exact");
    must("close", sblog_session_close(&session));
    return 0;
}
