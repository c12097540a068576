/* Calls each function in C of include/sblog.h, with each argument at, below and above its bounds, by an address sanitizer:
   nothing is read or written beyond what the arguments say, and a call that isn't made tells its code. What is called is C
   in place of machine code: it writes what the code of a handler of form 3 writes that the verifier takes, at a place of 64
   bytes by each number of a process, so a number above 15 would be seen. The codes that are wanted are those of
   docs/EMBEDDING.md. */
#define _DEFAULT_SOURCE
#define SBLOG_CALLS_CODE
#include <stdio.h>
#include <stdlib.h>

#include "sblog.h"

enum { ANSWER = 42, STEPS = 7, PLACE = 64 };

static const uint64_t numbers[] = {0, 1, 2, 14, 15, 16, 17, 31, 95, 255, 256, 257, UINT64_MAX};
static const size_t lengths[] = {0, 1, 63, 64, 65, 255, 256, 257, 512, 1023, 1024, 1025, 4096};
enum { NUMBERS = sizeof numbers / sizeof *numbers, LENGTHS = sizeof lengths / sizeof *lengths };

static unsigned long made, refused;

static void demand(int holds, const char *what) {
    if (holds) return;
    fprintf(stderr, "%s\n", what);
    exit(1);
}

static void put(uint8_t *at, uint64_t number) { memcpy(at, &number, 8); }

static uint64_t called(uint8_t *array, uint8_t *record, uint64_t len, size_t state_at) {
    for (uint64_t at = 0; at < state_at; at++) demand(at < len ? array[at] == 5 : array[at] == 0, "the message isn't there");
    put(record + 16, STEPS);
    put(array + state_at + PLACE * sblog_number(record + 24), 7);
    put(array + state_at + PLACE * sblog_number(record + 32), 7);
    made++;
    return ANSWER;
}

static uint64_t flat(uint8_t *array, uint8_t *record, uint64_t len) { return called(array, record, len, SBLOG_STATE_AT); }
static uint64_t span(uint8_t *array, uint8_t *record, uint64_t len) { return called(array, record, len, SBLOG_SPAN_STATE_AT); }

/* Memory of so many bytes and no more. */
static uint8_t *block(size_t size, int byte) {
    uint8_t *bytes = malloc(size ? size : 1);
    demand(bytes != NULL, "there is no memory");
    return memset(bytes, byte, size ? size : 1);
}

/* What a call is to answer: the first code that is there. */
static uint32_t wanted(int is_code, uint64_t me, uint64_t from, size_t message_len, size_t state_len) {
    if (!is_code) return SBLOG_HANDLE;
    if (me > 15 || from > 15) return SBLOG_WHO;
    if (message_len > 256) return SBLOG_MESSAGE;
    return state_len > 1024 ? SBLOG_STATE : SBLOG_DONE;
}

/* A call has written 7 at the place of me; one that isn't made has changed nothing but the front of the record. */
static void judge(uint32_t code, uint64_t answer, const uint8_t *array, size_t size, size_t state_at, uint64_t me, const uint8_t *record) {
    demand(sblog_number(record + 16) == (code == SBLOG_DONE ? STEPS : 0), "other steps");
    demand(answer == (code == SBLOG_DONE ? ANSWER : code), "another answer");
    for (size_t at = 0; code != SBLOG_DONE && at < size; at++) demand(array[at] == 1, "the array has changed");
    if (code == SBLOG_DONE) demand(sblog_number(array + state_at + PLACE * me) == 7, "the state hasn't changed");
    else refused++;
}

/* By sblog_native_call, sblog_native_call_span and sblog_native_call_at. */
static void call(int is_span, int is_code, uint8_t me, uint8_t from, size_t message_len, size_t state_len) {
    size_t size = is_span ? SBLOG_SPAN_ARRAY_SIZE : SBLOG_ARRAY_SIZE, state_at = is_span ? SBLOG_SPAN_STATE_AT : SBLOG_STATE_AT;
    uint8_t *array = block(size, 1), *message = block(message_len, 5), *record = block(SBLOG_RECORD_SIZE, 9);
    sblog_native_code code = !is_code ? NULL : is_span ? span : flat;
    uint64_t answer = is_span ? sblog_native_call_span(code, array, state_len, message, message_len, me, from, 15, record)
                              : sblog_native_call(code, array, state_len, message, message_len, me, from, 15, record);
    judge(wanted(is_code, me, from, message_len, state_len), answer, array, size, state_at, me, record);
    free(array);
    free(message);
    free(record);
}

/* By sblog_native_run, also of a form that isn't there, and of a sblog_who that no function has made. */
static void run(int form, int is_code, uint8_t me, uint8_t from, size_t message_len, size_t state_len) {
    size_t size = form == 3 ? SBLOG_SPAN_ARRAY_SIZE : SBLOG_ARRAY_SIZE, state_at = form == 3 ? SBLOG_SPAN_STATE_AT : SBLOG_STATE_AT;
    uint8_t *array = block(size, 1), *message = block(message_len, 5), *record = block(SBLOG_RECORD_SIZE, 0);
    sblog_who who = {me, from, 15};
    uint64_t answer = 99;
    uint32_t code = wanted(is_code, me, from, message_len, state_len);
    if (code == SBLOG_DONE && (form < 1 || form > 3)) code = SBLOG_FORM;
    if (code == SBLOG_DONE && form == 1 && message_len != 64) code = SBLOG_MESSAGE;
    uint32_t got = sblog_native_run(!is_code ? NULL : form == 3 ? span : flat, form, array, state_len, message, message_len, who, record, &answer);
    demand(got == code, "another code of sblog_native_run");
    demand(code == SBLOG_DONE || answer == 99, "r0 is written where nothing is called");
    judge(code, code == SBLOG_DONE ? answer : code, array, size, state_at, me, record);
    free(array);
    free(message);
    free(record);
}

/* By sblog_native_call_job, whose array has its message already. */
static void job(int is_code, uint64_t me, uint64_t from, uint64_t message_len) {
    uint8_t *array = block(SBLOG_SPAN_ARRAY_SIZE, 1), *record = block(SBLOG_RECORD_SIZE, 9);
    sblog_job asked = {1, 1, message_len, me, from, 15};
    uint32_t code = wanted(is_code, me, from, message_len > 4096 ? 4096 : (size_t)message_len, 0);
    if (code == SBLOG_DONE) {
        memset(array, 5, (size_t)message_len);
        memset(array + message_len, 0, SBLOG_SPAN_STATE_AT - (size_t)message_len);
    }
    uint64_t answer = sblog_native_call_job(is_code ? span : NULL, array, &asked, record);
    judge(code, answer, array, SBLOG_SPAN_ARRAY_SIZE, SBLOG_SPAN_STATE_AT, code == SBLOG_DONE ? me : 0, record);
    free(array);
    free(record);
}

static void calls(void) {
    for (int me = 0; me < NUMBERS; me++)
        for (int from = 0; from < NUMBERS; from++)
            for (int len = 0; len < LENGTHS; len++) {
                for (int state = 0; state < LENGTHS && numbers[me] < 256 && numbers[from] < 256; state++) {
                    for (int is_span = 0; is_span < 2; is_span++)
                        call(is_span, 1, (uint8_t)numbers[me], (uint8_t)numbers[from], lengths[len], lengths[state]);
                    for (int form = -1; form <= 4; form++)
                        run(form, 1, (uint8_t)numbers[me], (uint8_t)numbers[from], lengths[len], lengths[state]);
                }
                job(1, numbers[me], numbers[from], lengths[len]);
            }
    call(0, 0, 1, 0, 64, 8);
    call(1, 0, 1, 0, 64, 8);
    run(3, 0, 1, 0, 64, 8);
    job(0, 1, 0, 64);
    job(1, 1, 0, UINT64_MAX);
}

#ifdef __x86_64__
/* Machine code of a handler of form 3 that the verifier takes, as `sblog native` writes it: mov r6, r2; call 3; lsh r0, 6;
   add r6, r0; stdw [r6+0], 7; mov r0, 0; exit, with a state of 1,024 bytes. As process 95 it would write at 6,592, of an
   array of 2,048 bytes. */
static void by_the_processor(void) {
    static const uint8_t bytes[] = {
        0x55, 0x41, 0x54, 0x48, 0x8d, 0xbf, 0x80, 0x01, 0x00, 0x00, 0x49, 0x89, 0xd1, 0x45, 0x31, 0xdb, 0x45, 0x31,
        0xc0, 0x41, 0xbc, 0x00, 0x02, 0x00, 0x00, 0x4c, 0x89, 0xe5, 0x48, 0x8b, 0x46, 0x18, 0x48, 0xc1, 0xe0, 0x06,
        0x48, 0x01, 0xc5, 0x48, 0x8d, 0x94, 0x2f, 0x80, 0xfe, 0xff, 0xff, 0x48, 0xc7, 0x42, 0x00, 0x07, 0x00, 0x00,
        0x00, 0x31, 0xc0, 0x4d, 0x8d, 0x5b, 0x07, 0x4c, 0x89, 0x5e, 0x10, 0x41, 0x5c, 0x5d, 0xc3,
    };
    enum { BEYOND = SBLOG_SPAN_STATE_AT + PLACE * 256 };
    uint8_t record[SBLOG_RECORD_SIZE], message[64];
    sblog_native_code code = sblog_map(bytes, sizeof bytes);
    demand(code != NULL, "isn't mapped");
    memset(message, 5, sizeof message);
    for (int me = 0; me < 256; me++) {
        uint8_t *array = block(BEYOND, 1);
        sblog_native_call_span(code, array, SBLOG_STATE_LIMIT, message, sizeof message, (uint8_t)me, 0, 15, record);
        for (size_t at = SBLOG_SPAN_ARRAY_SIZE; at < BEYOND; at++) demand(array[at] == 1, "machine code wrote behind its array");
        if (me <= 15) demand(sblog_number(array + SBLOG_SPAN_STATE_AT + PLACE * me) == 7, "machine code hasn't written");
        free(array);
    }
    sblog_unmap(code, sizeof bytes);
}
#else
static void by_the_processor(void) {}
#endif

/* A state that begins elsewhere. */
static void places(void) {
    static const size_t at[] = {0, 1, 63, 64, 255, 257, 511, 513, 2048, SIZE_MAX};
    uint8_t array[SBLOG_SPAN_ARRAY_SIZE], record[SBLOG_RECORD_SIZE], message[64];
    memset(array, 1, sizeof array);
    memset(message, 5, sizeof message);
    for (size_t i = 0; i < sizeof at / sizeof *at; i++) {
        uint64_t answer = sblog_native_call_at(span, array, at[i], 8, message, sizeof message, 1, 0, 15, record);
        judge(SBLOG_FORM, answer, array, sizeof array, at[i], 1, record);
    }
}

static void whom(void) {
    for (int me = 0; me < NUMBERS; me++)
        for (int from = 0; from < NUMBERS; from++)
            for (int count = 0; count < NUMBERS; count++) {
                uint64_t m = numbers[me], f = numbers[from], n = numbers[count];
                int fits = 1 <= m && m <= n && n <= 15 && f <= n && f != m;
                sblog_who who = {77, 77, 77};
                uint32_t code = sblog_who_of(m, f, n, &who);
                demand(code == (fits ? SBLOG_DONE : SBLOG_WHO), "another code of sblog_who_of");
                if (fits) demand(who.me == m && who.from == f && who.count == n, "other numbers");
                else demand(who.me == 77 && who.from == 77 && who.count == 77, "numbers are written that don't fit");
            }
}

/* Reports of as many sends and outputs as there may be: where each ends. */
static void reports(void) {
    for (uint64_t sends = 0; sends <= 8; sends++)
        for (uint64_t outputs = 0; outputs <= 8; outputs++) {
            uint8_t *front = block(32, 0);
            put(front + 16, sends);
            put(front + 24, outputs);
            demand(sblog_report_size(front) == 32 + 65 * sends + 64 * outputs, "another size of a report");
            free(front);
        }
    uint8_t *word = block(8, 255);
    demand(sblog_number(word) == UINT64_MAX, "another number");
    put(word, 1);
    demand(sblog_number(word) == 1, "another number");
    free(word);
}

/* Machine code of mov eax, 42 and ret, of one byte to some pages; and none. */
static void pages(void) {
    static const uint8_t short_code[] = {0xb8, ANSWER, 0, 0, 0, 0xc3};
    static const size_t sizes[] = {6, 7, 4095, 4096, 4097, 65536};
    uint8_t array[SBLOG_ARRAY_SIZE], record[SBLOG_RECORD_SIZE], message[64] = {0};
    for (size_t i = 0; i < sizeof sizes / sizeof *sizes; i++) {
        uint8_t *bytes = block(sizes[i], 0xcc);
        memcpy(bytes, short_code, sizeof short_code);
        sblog_native_code code = sblog_map(bytes, sizes[i]);
        demand(code != NULL, "isn't mapped");
        free(bytes);
#ifdef __x86_64__
        demand(sblog_native_call(code, array, 8, message, sizeof message, 1, 0, 2, record) == ANSWER, "answers otherwise");
#endif
        sblog_unmap(code, sizes[i]);
    }
    demand(sblog_map(short_code, 0) == NULL, "no code is mapped");
    sblog_unmap(NULL, 0);
}

int main(void) {
    by_the_processor();
    calls();
    places();
    whom();
    reports();
    pages();
    printf("%lu calls of machine code as the header makes them, and %lu that it refuses\n", made, refused);
    return 0;
}
