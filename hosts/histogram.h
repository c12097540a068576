/* How long something took, each time: counted by bounds, as Prometheus has it. */
#ifndef HISTOGRAM_H
#define HISTOGRAM_H

#include <stdint.h>

enum { BUCKETS = 16 };

struct histogram {
    uint64_t counts[BUCKETS + 1]; /* the last one is of what is above all bounds */
    uint64_t sum;                 /* microseconds */
};

/* The bounds in microseconds: each counts what took so long at most. */
extern const uint64_t HISTOGRAM_BOUNDS[BUCKETS];

void histogram_add(struct histogram *histogram, uint64_t microseconds);

#endif
