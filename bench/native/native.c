/* native ROUNDS IMAGE ..: what sblog_compile takes for each image, and how much code it writes. An image is opened once and
   compiled again and again; a figure is the least of the rounds, each of as many calls as take about a millisecond, of the
   thread's own time. */
#define _POSIX_C_SOURCE 199309L
#include <stdint.h>
#include <stdio.h>
#include <stdlib.h>
#include <time.h>

#include "sblog.h"

enum { ROUND = 1000000 };

static uint8_t file[8 + 8 * 1024], code[1 << 20];

static void demand(int holds, const char *name, const char *what) {
    if (holds) return;
    fprintf(stderr, "%s: %s\n", name, what);
    exit(1);
}

static size_t read_file(const char *name) {
    FILE *from = fopen(name, "rb");
    demand(from != NULL, name, "can't be read");
    size_t len = fread(file, 1, sizeof file, from);
    fclose(from);
    return len;
}

static double now(void) {
    struct timespec t;
    clock_gettime(CLOCK_THREAD_CPUTIME_ID, &t);
    return (double)t.tv_sec * 1e9 + (double)t.tv_nsec;
}

/* Nanoseconds that so many calls take. */
static double run(sblog_handle *handle, const char *name, int times) {
    size_t size;
    double before = now();
    for (int i = 0; i < times; i++) demand(sblog_compile(handle, code, sizeof code, &size) == SBLOG_DONE, name, "isn't compiled");
    return now() - before;
}

static void measure(const char *name, int rounds) {
    size_t len = read_file(name), size = 0;
    sblog_handle *handle = NULL;
    demand(sblog_open(file, len, &handle) == SBLOG_DONE, name, "is refused");
    demand(sblog_compile(handle, code, sizeof code, &size) == SBLOG_DONE, name, "isn't compiled");
    int times = 1 + (int)(ROUND / run(handle, name, 4) * 4);
    double least = 1e18, slots = (double)(len - 8) / 8;
    for (int i = 0; i < rounds; i++) {
        double took = run(handle, name, times) / times;
        if (took < least) least = took;
    }
    sblog_close(handle);
    printf("%s: %.1f µs, %.1f ns a slot; %zu bytes of code, %.2f a slot\n", name, least / 1000, least / slots, size, (double)size / slots);
}

int main(int argc, char **argv) {
    int rounds = argc > 1 ? atoi(argv[1]) : 0;
    for (int i = 2; i < argc; i++) measure(argv[i], rounds);
    return 0;
}
