#include "watch.h"

#include <sched.h>
#include <time.h>

/* Microseconds for which the next message is looked for; processors of a machine that has some to spare. */
enum { THOUSAND = 1000, MOMENT = 50, SPARE = 4 };

uint64_t clock_now(void) {
    struct timespec now;
    clock_gettime(CLOCK_MONOTONIC, &now);
    return (uint64_t)now.tv_sec * SECOND + (uint64_t)now.tv_nsec / THOUSAND;
}

void watch_begin(struct watch *watch, uint64_t until) {
    watch->count = 0;
    watch->until = until;
    watch->is_eager = false;
}

void watch_file(struct watch *watch, int file, short events) {
    if (file < 0 || watch->count == WATCH_LIMIT) return;
    watch->files[watch->count++] = (struct pollfd){.fd = file, .events = events};
}

void watch_time(struct watch *watch, uint64_t until) {
    if (until < watch->until) watch->until = until;
}

static bool has_spare_processors(void) {
    static int count;
    cpu_set_t all;
    if (count == 0) count = sched_getaffinity(0, sizeof all, &all) == 0 ? CPU_COUNT(&all) : 1;
    return count >= SPARE;
}

void watch_came(struct watch *watch, size_t count) { watch->is_eager = count > 0 && count <= FEW && has_spare_processors(); }

/* How many files have something after at most so many microseconds; below 0 if a signal came. */
static int look(struct watch *watch, uint64_t most) {
    const struct timespec wait = {.tv_sec = (time_t)(most / SECOND), .tv_nsec = (long)(most % SECOND) * THOUSAND};
    return ppoll(watch->files, (nfds_t)watch->count, &wait, NULL);
}

void watch_wait(struct watch *watch) {
    uint64_t now = clock_now(), awake = watch->is_eager ? now + MOMENT : now;
    int count = 0;
    for (; count == 0 && now < awake && now < watch->until; now = clock_now()) count = look(watch, 0);
    if (count == 0) count = look(watch, watch->until > now ? watch->until - now : 0);
    if (count < 0) watch->count = 0; /* what they have isn't known */
}

bool watch_tells(const struct watch *watch, int file) {
    for (int i = 0; i < watch->count; i++)
        if (watch->files[i].fd == file) return watch->files[i].revents != 0;
    return true;
}
