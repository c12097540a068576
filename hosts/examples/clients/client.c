/* Hands COUNT words in for process 1 of a cluster, and prints the words of as many outputs: client SOCKET COUNT. It reconnects, sends
   again what isn't logged, and drops outputs that it had (docs/FORMATS.md, "Frames of a program"). Numbers are as on x86. */
#include <inttypes.h>
#include <stdio.h>
#include <stdlib.h>
#include <string.h>
#include <sys/socket.h>
#include <sys/un.h>
#include <unistd.h>

enum { INPUT = 1, LOGGED, REFUSED, OUTPUT, TAKEN, PROCESS = 1, AHEAD = 256, HEAD = 10, LENGTH = 4 };

struct frame {
    uint32_t length;
    uint8_t kind, process;
    uint64_t ssn, word;
    uint8_t more[248];
} __attribute__((packed));

static uint64_t first = UINT64_MAX, shown, had[256]; /* the SSN before its inputs; outputs, and the last one of each process */

/* What a broken connection loses is said again. */
static void say(int file, struct frame it) {
    it.length = HEAD + (it.kind == INPUT ? sizeof it.word : 0);
    send(file, &it, LENGTH + it.length, MSG_NOSIGNAL);
}

static void talk(int file, uint64_t count) {
    struct frame it;
    uint64_t sent = 0;
    send(file, "SBF1", 4, MSG_NOSIGNAL);
    say(file, (struct frame){.kind = OUTPUT});
    say(file, (struct frame){.kind = LOGGED, .process = PROCESS});
    while (shown < count && recv(file, &it, LENGTH, MSG_WAITALL) == LENGTH && it.length <= sizeof it - LENGTH &&
           recv(file, &it.kind, it.length, MSG_WAITALL) == (ssize_t)it.length) {
        if (it.kind == REFUSED) exit(1);
        if (it.kind == LOGGED) {
            if (first == UINT64_MAX) first = it.ssn;
            for (sent = sent > it.ssn ? sent : it.ssn; sent < first + count && sent < it.ssn + AHEAD; sent++)
                say(file, (struct frame){.kind = INPUT, .process = PROCESS, .ssn = sent + 1, .word = sent + 1 - first});
        } else {
            if (it.ssn > had[it.process]) {
                printf("%d %" PRIu64 " %" PRIu64 "\n", it.process, it.ssn, it.word);
                had[it.process] = it.ssn;
                shown++;
            }
            say(file, (struct frame){.kind = TAKEN, .process = it.process, .ssn = it.ssn});
        }
    }
}

int main(int argc, char **argv) {
    struct sockaddr_un path = {.sun_family = AF_UNIX};
    if (argc != 3) return 2;
    strncpy(path.sun_path, argv[1], sizeof path.sun_path - 1);
    for (uint64_t count = strtoull(argv[2], NULL, 10); shown < count; usleep(20000)) {
        int file = socket(AF_UNIX, SOCK_STREAM, 0);
        if (connect(file, (const struct sockaddr *)&path, sizeof path) == 0) talk(file, count);
        close(file);
    }
    return 0;
}
