/* What a program waits for: files that can be read or written, and a time. */
#ifndef WATCH_H
#define WATCH_H

#include <poll.h>
#include <stdbool.h>
#include <stddef.h>
#include <stdint.h>

/* Files; microseconds; what a turn has that is small: of messages that go one by one. */
enum { WATCH_LIMIT = 256, SECOND = 1000000, FEW = 8 };

struct watch {
    struct pollfd files[WATCH_LIMIT];
    int count;
    uint64_t until; /* in microseconds of the clock */
    bool is_eager;
};

/* Microseconds of a clock that never goes back. */
uint64_t clock_now(void);

/* Begins anew, with a time to wake up at. */
void watch_begin(struct watch *watch, uint64_t until);

/* Wakes up for this file, too. One more than there is place for is looked at when time is up. */
void watch_file(struct watch *watch, int file, short events);

/* Wakes up at this time, or before. */
void watch_time(struct watch *watch, uint64_t until);

/* So many came in this turn. After few, the next one comes soon: a program on a machine with processors to spare looks for it for a moment,
   and then sleeps. That spares the way back from sleep. */
void watch_came(struct watch *watch, size_t count);

/* Waits. A signal ends it as well. */
void watch_wait(struct watch *watch);

/* Whether something can be done with a file after the wait. Of one that wasn't waited for that isn't known: so it may. */
bool watch_tells(const struct watch *watch, int file);

#endif
