// Numbers by chance, the same at each run: xorshift.
#include <stdint.h>

static uint64_t seed = 0x9e3779b97f4a7c15;

static uint64_t chance(void) {
    seed ^= seed << 13;
    seed ^= seed >> 7;
    seed ^= seed << 17;
    return seed * 0x2545f4914f6cdd1d;
}

static uint64_t below(uint64_t limit) { return (chance() >> 11) % limit; }
