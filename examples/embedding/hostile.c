/* All that docs/EMBEDDING.md allows of handles, with hostile arguments: null handles, files that are refused,
   states of other lengths, two faults at once, and 3,000 files by chance. It is meant for an address sanitizer,
   so each buffer has a block of its own, of exactly its length. What sblog_run answers and writes is compared
   with sblog_call_many on the same file. */
#include <inttypes.h>
#include <stdio.h>
#include <stdlib.h>
#include <string.h>

#include "sblog.h"

#define FAIL(...) (fprintf(stderr, "line %d: ", __LINE__), fprintf(stderr, __VA_ARGS__), fputc('\n', stderr), exit(1))
#define SAME(found, wanted) do { \
        uint64_t f_ = (found), w_ = (wanted); \
        if (f_ != w_) FAIL("%s is %" PRIu64 ", and not %" PRIu64, #found, f_, w_); \
    } while (0)

typedef struct {
    uint8_t *at;
    size_t len;
} block;

/* A block of memory of exactly this length, with this byte everywhere. A length of 0 gets a place too. */
static block filled(size_t len, int byte) {
    block b = {malloc(len == 0 ? 1 : len), len};
    if (b.at == NULL) FAIL("no memory for the test");
    memset(b.at, byte, len);
    return b;
}

static block copied(const void *bytes, size_t len) {
    block b = filled(len, 0);
    memcpy(b.at, bytes, len);
    return b;
}

/* Frees it. */
static void done(block b) { free(b.at); }

static uint64_t seed = 88172645463325252;

/* A number below the limit: xorshift. */
static uint64_t chance(uint64_t limit) {
    seed ^= seed << 13;
    seed ^= seed >> 7;
    seed ^= seed << 17;
    return seed % limit;
}

/* r3 = message[0..8]; r4 = state[0..8]; r4 += r3; state[0..8] = r4; r0 = 0; exit */
static const uint8_t adder[56] =
    "SBI1\x08\0\x06\0\x79\x13\0\0\0\0\0\0\x79\x24\0\0\0\0\0\0\x0f\x34\0\0\0\0\0\0\x7b\x42\0\0\0\0\0\0\xb7\0\0\0\0\0\0\0"
    "\x95\0\0\0\0\0\0";

/* r6 = r1; r7 = r2; r1 = 2; r2 = r6; send; r1 = r6; output; own number; state[0] = r0; sender; state[1] = r0; exit */
static const uint8_t talker[104] =
    "SBI1\x08\0\x0c\0\xbf\x16\0\0\0\0\0\0\xbf\x27\0\0\0\0\0\0\xb7\x01\0\0\x02\0\0\0\xbf\x62\0\0\0\0\0\0\x85\0\0\0\x01\0\0\0"
    "\xbf\x61\0\0\0\0\0\0\x85\0\0\0\x02\0\0\0\x85\0\0\0\x03\0\0\0\x73\x07\0\0\0\0\0\0\x85\0\0\0\x04\0\0\0\x73\x07\x01\0\0\0\0\0"
    "\x95\0\0\0\0\0\0";

/* r0 = 0; exit, in form 2 */
static const uint8_t form_2[24] = "SBI2\0\0\x02\0\xb7\0\0\0\0\0\0\0\x95\0\0\0\0\0\0";

/* stack[-8] = r2; r6 = message[r3]; r7 = stack[-8]; r7[0..8] += r3 + r6; output(r7, 3); exit, in form 3 */
static const uint8_t counter[104] =
    "SBI3\x08\0\x0c\0\x7b\x2a\xf8\xff\0\0\0\0\x0f\x31\0\0\0\0\0\0\x71\x16\0\0\0\0\0\0\x0f\x63\0\0\0\0\0\0"
    "\x79\xa7\xf8\xff\0\0\0\0\x79\x78\0\0\0\0\0\0\x0f\x38\0\0\0\0\0\0\x7b\x87\0\0\0\0\0\0\xbf\x71\0\0\0\0\0\0"
    "\xb7\x02\0\0\x03\0\0\0\x85\0\0\0\x06\0\0\0\x95\0\0\0\0\0\0";

static uint32_t run(sblog_handle *handle, block state, block messages, int me, int from, int count, block reports) {
    return sblog_run(handle, state.at, state.len, messages.at, messages.len, (uint8_t)me, (uint8_t)from, (uint8_t)count,
                     reports.at, reports.len);
}

/* The same calls by a handle and by the file: one code, the same state and the same reports. Where they are refused,
   both are as they were. */
static uint32_t compared(sblog_handle *handle, block file, size_t state_len, size_t messages_len, int me, int from,
                         int count, size_t reports_len) {
    block state = filled(state_len, 3), state_2 = filled(state_len, 3);
    block reports = filled(reports_len, 0x5a), reports_2 = filled(reports_len, 0x5a);
    block messages = filled(messages_len, 0);
    for (size_t i = 0; i < messages_len; i++) messages.at[i] = (uint8_t)chance(256);
    uint32_t code = run(handle, state, messages, me, from, count, reports);
    SAME(code, sblog_call_many(file.at, file.len, state_2.at, state_2.len, messages.at, messages.len, (uint8_t)me,
                               (uint8_t)from, (uint8_t)count, reports_2.at, reports_2.len));
    if (memcmp(state.at, state_2.at, state_len) != 0) FAIL("the states differ");
    if (memcmp(reports.at, reports_2.at, reports_len) != 0) FAIL("the reports differ");
    if (code != SBLOG_DONE) {
        for (size_t i = 0; i < state_len; i++) SAME(state.at[i], 3);
        for (size_t i = 0; i < reports_len; i++) SAME(reports.at[i], 0x5a);
    }
    done(state), done(state_2), done(reports), done(reports_2), done(messages);
    return code;
}

/* A null handle is told before all else, and leaves everything as it is. */
static void null_handles(void) {
    SAME(sblog_state_len(NULL), 0);
    sblog_close(NULL);
    sblog_close(NULL);
    block state = filled(9, 3), messages = filled(63, 1), reports = filled(5, 0x5a);
    SAME(run(NULL, state, messages, 0, 9, 99, reports), SBLOG_HANDLE);
    for (size_t i = 0; i < 9; i++) SAME(state.at[i], 3);
    for (size_t i = 0; i < 5; i++) SAME(reports.at[i], 0x5a);
    done(state), done(messages), done(reports);
}

/* Opens it by a block that is gone when it is used. */
static sblog_handle *opened(const uint8_t *file, size_t len, uint32_t wanted) {
    block b = copied(file, len);
    sblog_handle *handle = (sblog_handle *)b.at;
    SAME(sblog_open(b.at, b.len, &handle), wanted);
    SAME(handle == NULL, wanted != SBLOG_DONE);
    memset(b.at, 0xff, b.len);
    done(b);
    return handle;
}

/* Codes in their order, each with every later fault at once: process, messages, room, form, state. The image is
   called, and its state has 8 bytes. */
static void faults(const uint8_t *image, size_t image_len) {
    block file = copied(image, image_len), second = copied(form_2, sizeof form_2);
    sblog_handle *handle = opened(image, image_len, SBLOG_DONE), *other = opened(form_2, sizeof form_2, SBLOG_DONE);
    SAME(sblog_state_len(handle), 8);
    SAME(sblog_state_len(other), 0);
    const int nobody[][3] = {{0, 1, 2}, {1, 1, 2}, {3, 0, 2}, {1, 3, 2}, {1, 0, 16}, {1, 0, 0}, {255, 255, 255}};
    for (size_t i = 0; i < sizeof nobody / sizeof *nobody; i++) {
        SAME(compared(handle, file, 9, 65, nobody[i][0], nobody[i][1], nobody[i][2], 1063), SBLOG_WHO);
        SAME(compared(other, second, 9, 65, nobody[i][0], nobody[i][1], nobody[i][2], 1063), SBLOG_WHO);
    }
    for (size_t len = 0; len < 300; len++)
        if (len % 64 != 0) {
            SAME(compared(handle, file, 9, len, 1, 0, 1, 0), SBLOG_MESSAGE);
            SAME(compared(other, second, 9, len, 1, 0, 1, 0), SBLOG_MESSAGE);
        }
    SAME(compared(handle, file, 9, 64, 1, 0, 1, 1063), SBLOG_ROOM);
    SAME(compared(handle, file, 9, 192, 1, 0, 1, 3191), SBLOG_ROOM);
    SAME(compared(other, second, 9, 64, 1, 0, 1, 1063), SBLOG_ROOM);
    SAME(compared(other, second, 9, 64, 1, 0, 1, 1064), SBLOG_FORM);
    for (size_t len = 0; len < 20; len++) SAME(compared(handle, file, len, 64, 1, 0, 1, 1064), len == 8 ? SBLOG_DONE : SBLOG_STATE);
    SAME(compared(handle, file, 1025, 64, 1, 0, 1, 1064), SBLOG_STATE);
    SAME(compared(handle, file, 8, 0, 1, 0, 1, 0), SBLOG_DONE);
    sblog_close(handle), sblog_close(other), done(file), done(second);
}

/* Two handles of one file stay apart, and each is called often. */
static void calls(void) {
    block file = copied(adder, sizeof adder), speech = copied(talker, sizeof talker);
    sblog_handle *one = opened(adder, sizeof adder, SBLOG_DONE), *two = opened(adder, sizeof adder, SBLOG_DONE);
    sblog_handle *three = opened(talker, sizeof talker, SBLOG_DONE), *four = opened(counter, sizeof counter, SBLOG_DONE);
    block ordinary = copied(counter, sizeof counter);
    for (int i = 0; i < 1000; i++) {
        size_t n = chance(5);
        SAME(compared(i % 2 == 0 ? one : two, file, 8, 64 * n, 1, 0, 1, 1064 * n + chance(3)), SBLOG_DONE);
        SAME(compared(three, speech, 8, 64 * n, 1, 15, 15, 1064 * n), SBLOG_DONE);
        SAME(compared(four, ordinary, 8, 64 * n, 15, 0, 15, 1064 * n), SBLOG_DONE);
        if (i == 500) sblog_close(one), one = opened(adder, sizeof adder, SBLOG_DONE);
    }
    block state = filled(8, 0), messages = filled(128, 0), reports = filled(2128, 0);
    messages.at[0] = 5, messages.at[64] = 7;
    SAME(run(one, state, messages, 1, 0, 1, reports), SBLOG_DONE);
    SAME(sblog_number(state.at), 12);
    SAME(sblog_number(reports.at + 8), 6);
    SAME(sblog_report_size(reports.at), 32);
    memset(state.at, 0, 8);
    SAME(run(four, state, messages, 1, 0, 1, reports), SBLOG_DONE);
    SAME(sblog_number(state.at), 128);
    SAME(sblog_report_size(reports.at), 96);
    SAME(sblog_number(reports.at + 96 + 32), 128);
    uint8_t code[1] = {0x5a};
    size_t size = 9;
    SAME(sblog_compile(four, code, sizeof code, &size), SBLOG_ROOM);
    SAME(code[0], 0x5a);
    SAME(size > 9, 1);
    done(state), done(messages), done(reports);
    sblog_close(one), sblog_close(two), sblog_close(three), sblog_close(four), done(file), done(speech), done(ordinary);
}

/* A file by chance: of any bytes, with a header that fits, or one that is accepted with some bytes changed. */
static block by_chance(int i) {
    if (i % 3 == 0) {
        block b = filled(chance(200), 0);
        for (size_t k = 0; k < b.len; k++) b.at[k] = (uint8_t)chance(256);
        return b;
    }
    if (i % 3 == 1) {
        size_t slots = 1 + chance(20);
        block b = filled(8 + 8 * slots, 0);
        memcpy(b.at, i % 9 == 1 ? "SBI3" : chance(2) == 0 ? "SBI1" : "SBI2", 4);
        b.at[4] = (uint8_t)chance(256), b.at[5] = (uint8_t)chance(5), b.at[6] = (uint8_t)slots;
        static const uint8_t opcodes[] = {0xb7, 0xbf, 0x07, 0x0f, 0x79, 0x7b, 0x61, 0x63, 0x85, 0x15, 0x05, 0x95};
        for (size_t k = 8; k < b.len; k += 8) {
            b.at[k] = opcodes[chance(sizeof opcodes)];
            if (chance(2) == 0) b.at[k + 1] = (uint8_t)(chance(11) | chance(11) << 4);
            if (chance(3) == 0) b.at[k + 4] = (uint8_t)chance(8);
        }
        memcpy(b.at + b.len - 8, "\x95\0\0\0\0\0\0", 8);
        return b;
    }
    block b = i % 9 == 2 ? copied(counter, sizeof counter) : chance(2) == 0 ? copied(adder, sizeof adder) : copied(talker, sizeof talker);
    for (size_t k = chance(3); k > 0; k--) b.at[chance(b.len)] ^= (uint8_t)(1u << chance(8));
    return b;
}

/* sblog_open answers as sblog_check does, and calls after it as sblog_call_many. */
static void files(int count) {
    int codes[SBLOG_HANDLE + 1] = {0};
    for (int i = 0; i < count; i++) {
        block file = by_chance(i), fault = filled(SBLOG_FAULT_SIZE, 0);
        uint32_t code = sblog_check(file.at, file.len, fault.at, fault.len);
        sblog_handle *handle = opened(file.at, file.len, code);
        size_t state_len = sblog_state_len(handle), n = chance(4);
        codes[code]++;
        if (code == SBLOG_DONE) {
            SAME(state_len, (size_t)(file.at[4] | file.at[5] << 8));
            SAME(compared(handle, file, state_len + 1, 64, 2, 1, 3, 1064), file.at[3] != '2' ? SBLOG_STATE : SBLOG_FORM);
            SAME(compared(handle, file, state_len, 64 * n, 2, 1, 3, 1064 * n), file.at[3] != '2' ? SBLOG_DONE : SBLOG_FORM);
        } else
            SAME(state_len, 0);
        sblog_close(handle), done(file), done(fault);
    }
    SAME(codes[SBLOG_DONE] && codes[SBLOG_HEADER] && codes[SBLOG_CODE] && codes[SBLOG_RULES], 1);
    printf("%d files: %d opened, refused %d by header, %d by encoding, %d by rules\n", count, codes[SBLOG_DONE],
           codes[SBLOG_HEADER], codes[SBLOG_CODE], codes[SBLOG_RULES]);
}

int main(void) {
    null_handles();
    faults(adder, sizeof adder);
    faults(counter, sizeof counter);
    calls();
    files(3000);
    puts("all as it should be");
    return 0;
}
