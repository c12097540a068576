#include "checksum.h"

#include <string.h>

#if defined(__x86_64__)
__attribute__((target("sse4.2"))) static uint32_t by_processor(uint32_t rest, const uint8_t *at, size_t size) {
    uint64_t word, all = rest;
    for (; size >= sizeof word; at += sizeof word, size -= sizeof word) {
        memcpy(&word, at, sizeof word);
        all = __builtin_ia32_crc32di(all, word);
    }
    for (rest = (uint32_t)all; size > 0; size--) rest = __builtin_ia32_crc32qi(rest, *at++);
    return rest;
}
#endif

/* A half of a byte at a time. */
static uint32_t by_table(uint32_t rest, const uint8_t *at, size_t size) {
    static const uint32_t table[16] = {
        0x00000000, 0x105ec76f, 0x20bd8ede, 0x30e349b1, 0x417b1dbc, 0x5125dad3, 0x61c69362, 0x7198540d,
        0x82f63b78, 0x92a8fc17, 0xa24bb5a6, 0xb21572c9, 0xc38d26c4, 0xd3d3e1ab, 0xe330a81a, 0xf36e6f75,
    };
    for (; size > 0; size--) {
        rest ^= *at++;
        rest = rest >> 4 ^ table[rest & 15];
        rest = rest >> 4 ^ table[rest & 15];
    }
    return rest;
}

uint32_t checksum(uint32_t before, const void *bytes, size_t size) {
#if defined(__x86_64__)
    if (__builtin_cpu_supports("sse4.2")) return ~by_processor(~before, bytes, size);
#endif
    return ~by_table(~before, bytes, size);
}
