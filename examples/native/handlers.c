// Opens image files, compiles and maps them, and calls each by random messages: every answer has to be sblog_run's.
#define _DEFAULT_SOURCE
#define SBLOG_CALLS_CODE
#include "processor/chance.h"
#include "sblog.h"

#include <stdio.h>
#include <stdlib.h>

enum { CALLS = 1000, MESSAGE = SBLOG_MESSAGE_SIZE };

static void demand(int holds, const char *name, const char *what) {
    if (holds) return;
    fprintf(stderr, "%s: %s\n", name, what);
    exit(1);
}

static uint8_t *read_file(const char *name, size_t *size) {
    FILE *file = fopen(name, "rb");
    uint8_t *bytes = malloc(1 << 16);
    demand(file != NULL && bytes != NULL, name, "can't be read");
    *size = fread(bytes, 1, 1 << 16, file);
    fclose(file);
    return bytes;
}

// The code of a handle in pages of its own. A buffer that is too short is told the size, and left alone.
static sblog_native_code compiled(sblog_handle *handle, const char *name, size_t *size) {
    uint8_t short_by_one = 0xa5;
    demand(sblog_compile(handle, &short_by_one, 0, size) == SBLOG_ROOM, name, "fits into no bytes");
    uint8_t *bytes = malloc(*size);
    size_t again = 0;
    demand(bytes != NULL, name, "no memory");
    memset(bytes, 0xa5, *size);
    demand(sblog_compile(handle, bytes, *size - 1, &again) == SBLOG_ROOM && again == *size, name, "tells another size");
    for (size_t i = 0; i < *size; i++) demand(bytes[i] == 0xa5, name, "writes though the buffer is short");
    demand(sblog_compile(handle, bytes, *size, &again) == SBLOG_DONE && again == *size, name, "isn't compiled");
    sblog_native_code code = sblog_map(bytes, *size);
    demand(code != NULL, name, "isn't mapped");
    free(bytes);
    return code;
}

// Whether a report of sblog_run says of a record what the record says, with 64 bytes of each payload.
static int is_told(uint64_t r0, const uint8_t *record, const uint8_t *report) {
    uint64_t sends = sblog_number(record), outputs = sblog_number(record + 8);
    if (sblog_number(report) != r0 || sblog_number(report + 8) != sblog_number(record + 16)) return 0;
    if (sblog_number(report + 16) != sends || sblog_number(report + 24) != outputs) return 0;
    const uint8_t *at = report + 32;
    for (uint64_t i = 0; i < sends + outputs; i++) {
        const uint8_t *place = record + (i < sends ? 64 + 272 * i : 2240 + 272 * (i - sends));
        uint64_t length = sblog_number(place + 8);
        if (i < sends && *at++ != sblog_number(place)) return 0;
        for (uint64_t b = 0; b < 64; b++)
            if (*at++ != (b < length ? place[16 + b] : 0)) return 0;
    }
    return 1;
}

// How the array of a form is laid out, and called.
struct form {
    size_t state_at;
    uint64_t (*call)(sblog_native_code, uint8_t *, size_t, const uint8_t *, size_t, uint8_t, uint8_t, uint8_t, uint8_t *);
};

// One call by both, on the same state: the state that is left, and the report, are the same.
static void call_both(sblog_handle *handle, sblog_native_code code, const struct form *form, const char *name, uint8_t *array, uint8_t *state, size_t len) {
    static uint8_t message[MESSAGE], record[SBLOG_RECORD_SIZE], run[SBLOG_REPORT_LIMIT], report[SBLOG_REPORT_LIMIT];
    for (int i = 0; i < MESSAGE; i++) message[i] = (uint8_t)below(below(2) ? 256 : 3);
    uint8_t count = (uint8_t)(1 + below(15)), me = (uint8_t)(1 + below(count)), from = (uint8_t)((me + 1 + below(count)) % (count + 1));
    memset(run, 0xa5, sizeof run);
    memset(report, 0xa5, sizeof report);
    uint32_t done = sblog_run(handle, state, len, message, MESSAGE, me, from, count, run, sizeof run);
    demand(done == SBLOG_DONE, name, "isn't run");
    uint64_t r0 = form->call(code, array, len, message, MESSAGE, me, from, count, record);
    demand(is_told(r0, record, run), name, "the record says another thing");
    demand(memcmp(array + form->state_at, state, len) == 0, name, "the states differ");
    if (form->state_at != SBLOG_STATE_AT) return;
    demand(sblog_native_report(r0, record, sizeof record, report, sizeof report - 1) == SBLOG_ROOM, name, "reports into a short buffer");
    demand(sblog_native_report(r0, record, sizeof record - 1, report, sizeof report) == SBLOG_RECORD, name, "reports half a record");
    demand(sblog_native_report(r0, record, sizeof record, report, sizeof report) == SBLOG_DONE, name, "isn't reported");
    demand(memcmp(report, run, sizeof run) == 0, name, "the reports differ");
}

static void compare(const char *name) {
    static const struct form two = {SBLOG_STATE_AT, sblog_native_call}, three = {SBLOG_SPAN_STATE_AT, sblog_native_call_span};
    static uint8_t array[SBLOG_SPAN_ARRAY_SIZE], state[1024];
    size_t file_len, size;
    uint8_t *file = read_file(name, &file_len);
    sblog_handle *handle = NULL;
    demand(sblog_open(file, file_len, &handle) == SBLOG_DONE, name, "isn't opened");
    size_t len = sblog_state_len(handle);
    const struct form *form = file[3] == '3' ? &three : &two;
    sblog_native_code code = compiled(handle, name, &size);
    memset(array, 0, sizeof array);
    for (size_t i = 0; i < len; i++) array[form->state_at + i] = state[i] = (uint8_t)below(256);
    for (int i = 0; i < CALLS; i++) call_both(handle, code, form, name, array, state, len);
    printf("%s: %zu bytes of code, %d calls as by sblog_run\n", name, size, CALLS);
    sblog_unmap(code, size);
    sblog_close(handle);
    free(file);
}

int main(int count, char **names) {
    uint8_t none = 0xa5;
    size_t size = 7;
    demand(sblog_compile(NULL, &none, 1, &size) == SBLOG_HANDLE && size == 7, "a null handle", "is compiled");
    demand(none == 0xa5, "a null handle", "writes");
    for (int i = 1; i < count; i++) compare(names[i]);
    return 0;
}
