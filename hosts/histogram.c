#include "histogram.h"

const uint64_t HISTOGRAM_BOUNDS[BUCKETS] = {100,    250,    500,    1000,   2500,    5000,    10000,   25000,
                                            50000,  100000, 250000, 500000, 1000000, 2500000, 5000000, 10000000};

void histogram_add(struct histogram *histogram, uint64_t microseconds) {
    int bucket = 0;
    while (bucket < BUCKETS && microseconds > HISTOGRAM_BOUNDS[bucket]) bucket++;
    histogram->counts[bucket]++;
    histogram->sum += microseconds;
}
