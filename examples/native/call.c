// Calls the stored code on this processor, and compares what it leaves with what the handlers' texts say.
#include <stdint.h>
#include <stdio.h>
#include <stdlib.h>
#include <string.h>
#include <sys/mman.h>

enum { ARRAY = 1792, STATE = 256, RECORD = 4416, PAGE = 4096 };
enum { SENDS = 0, OUTPUTS = 8, STEPS = 16, ME = 24, FROM = 32, COUNT = 40, FIRST_SEND = 64, PLACE = 272 };

typedef uint64_t handler(uint8_t *array, uint8_t *record, uint64_t len);

static uint8_t array[ARRAY], record[RECORD], expected[RECORD];

// The file's bytes, never writable and executable at once.
static handler *mapped(const char *name) {
    FILE *file = fopen(name, "rb");
    void *page = mmap(0, PAGE, PROT_READ | PROT_WRITE, MAP_PRIVATE | MAP_ANONYMOUS, -1, 0);
    if (!file || page == MAP_FAILED || !fread(page, 1, PAGE, file)) exit(2);
    fclose(file);
    if (mprotect(page, PAGE, PROT_READ | PROT_EXEC)) exit(2);
    return (handler *)page;
}

static uint64_t word(const uint8_t *bytes) {
    uint64_t value;
    memcpy(&value, bytes, 8);
    return value;
}

static void put(uint8_t *bytes, uint64_t value) { memcpy(bytes, &value, 8); }

static void expect(const char *what, uint64_t got, uint64_t meant) {
    if (got == meant) return;
    printf("%s: %llu, not %llu\n", what, (unsigned long long)got, (unsigned long long)meant);
    exit(1);
}

// A call by process `me` of `count`, with `sends` messages there already. What isn't written stays 0xa5.
static uint64_t called(handler *code, uint64_t me, uint64_t count, uint64_t sends) {
    memset(record, 0xa5, RECORD);
    put(record + SENDS, sends);
    put(record + OUTPUTS, 0);
    put(record + STEPS, 0);
    put(record + ME, me);
    put(record + FROM, 0);
    put(record + COUNT, count);
    memcpy(expected, record, RECORD);
    for (int i = 0; i < 64; i++) array[i] = (uint8_t)(i + 1);
    return code(array, record, 64);
}

static void adder(handler *code) {
    put(array + STATE, UINT64_MAX - 6);
    expect("adder's r0", called(code, 1, 2, 0), 0);
    expect("adder's state", word(array + STATE), 0x0807060504030201 - 7);
    put(expected + STEPS, 6);
    expect("adder's record differs", memcmp(record, expected, RECORD) != 0, 0);
}

static void greatest(handler *code) {
    for (uint64_t less = 0; less < 2; less++) {
        uint64_t state = 0x0807060504030200 + less;
        put(array + STATE, state);
        expect("greatest's r0", called(code, 1, 2, 0), 0);
        expect("greatest's state", word(array + STATE), 0x0807060504030201);
        put(expected + STEPS, less ? 5 : 6);
        expect("greatest's record differs", memcmp(record, expected, RECORD) != 0, 0);
    }
}

static void relay_refused(handler *code, uint64_t me, uint64_t count, uint64_t sends, uint64_t answer) {
    expect("relay's r0", called(code, me, count, sends), answer);
    put(expected + STEPS, 4);
    expect("relay's record differs", memcmp(record, expected, RECORD) != 0, 0);
}

static void relay(handler *code) {
    for (uint64_t sends = 0; sends < 8; sends++) {
        uint8_t *place = expected + FIRST_SEND + PLACE * sends;
        expect("relay's r0", called(code, 1, 2, sends), 0);
        put(expected + SENDS, sends + 1);
        put(expected + STEPS, 4);
        put(place, 2);
        put(place + 8, 64);
        memcpy(place + 16, array, 64);
        expect("relay's record differs", memcmp(record, expected, RECORD) != 0, 0);
    }
    relay_refused(code, 1, 2, 8, 2);
    relay_refused(code, 2, 2, 0, 1);
    relay_refused(code, 1, 1, 0, 1);
    relay_refused(code, 1, 1, 8, 1);
}

static void sums(handler *code) {
    expect("sums's r0", called(code, 1, 2, 0), 0x0807060504030201 + 200 + 1 + 5);
    put(expected + STEPS, 11);
    expect("sums's record differs", memcmp(record, expected, RECORD) != 0, 0);
}

int main(void) {
    adder(mapped("adder.bin"));
    greatest(mapped("greatest.bin"));
    relay(mapped("relay.bin"));
    sums(mapped("sums.bin"));
    puts("examples/native: the codes do on this processor what the handlers say");
    return 0;
}
