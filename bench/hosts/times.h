/* When each of so many messages of 64 bytes was handed in, and how long it took until it was shown; some are ahead of the others. The
   number of a message is its first eight bytes, the others are zeros. */
#include <stdbool.h>
#include <stdint.h>
#include <stdio.h>
#include <stdlib.h>
#include <string.h>
#include <time.h>

enum { SIZE = 64 };

struct times {
    long count, ahead, sent, shown;
    double *began, *took;
};

static inline void fails(const char *why) {
    fprintf(stderr, "%s\n", why);
    exit(1);
}

static inline double now(void) {
    struct timespec at;
    clock_gettime(CLOCK_MONOTONIC, &at);
    return (double)at.tv_sec + (double)at.tv_nsec / 1e9;
}

static inline struct times times_begin(const char *count, const char *ahead) {
    struct times times = {.count = atol(count), .ahead = atol(ahead)};
    if (times.count < 1 || times.ahead < 1) fails("COUNT and AHEAD are above 0");
    times.began = calloc((size_t)times.count, sizeof *times.began);
    times.took = calloc((size_t)times.count, sizeof *times.took);
    if (!times.began || !times.took) fails("there is no memory for it");
    return times;
}

/* Whether one more may be handed in; and the next one is. */
static inline bool times_may_send(const struct times *times) {
    return times->sent < times->count && times->sent - times->shown < times->ahead;
}

static inline void times_send(struct times *times, uint8_t payload[SIZE]) {
    times->began[times->sent++] = now();
    memset(payload, 0, SIZE);
    memcpy(payload, &times->sent, sizeof times->sent);
}

static inline bool times_are_over(const struct times *times) { return times->shown == times->count; }

/* One was shown: it has to be the next. */
static inline void times_show(struct times *times, const void *payload, size_t size) {
    uint8_t right[SIZE] = {0};
    long number = times->shown + 1;
    memcpy(right, &number, sizeof number);
    if (times_are_over(times) || size != SIZE || memcmp(payload, right, SIZE) != 0) fails("another message than the next was shown");
    times->took[times->shown] = now() - times->began[times->shown];
    times->shown++;
}

static inline int by_size(const void *one, const void *other) {
    double a = *(const double *)one, b = *(const double *)other;
    return (a > b) - (a < b);
}

/* Messages a second, and median and 99th of a hundred of what one took, in milliseconds. */
static inline void times_print(struct times *times) {
    long last = times->count - 1;
    double seconds = times->began[last] + times->took[last] - times->began[0];
    qsort(times->took, (size_t)times->count, sizeof *times->took, by_size);
    double median = times->took[times->count / 2], late = times->took[times->count * 99 / 100];
    printf("%.0f %.3f %.3f\n", (double)times->count / seconds, 1e3 * median, 1e3 * late);
}
