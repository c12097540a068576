/* Calls each export of the C library that calls handlers, with a handle open, again where memory was refused, and
   prints what it answers.

       exports IMAGE

   A call that answers SBLOG_MEMORY has to leave state, fault and reports as they were, and a call by an
   open handle has to ask for no memory. The program ends with status 1 where one doesn't, or where memory
   is refused twice. It takes no memory itself, and closes what it opens. */
#include <fcntl.h>
#include <stdio.h>
#include <string.h>
#include <unistd.h>

#include "sblog.h"

enum { MESSAGES = 3, HEADER = 8, STATE_LIMIT = 1024, RECORD = 4416, CODE_LIMIT = 1 << 17, WRONG = 99 };

/* All that a call may change. */
static struct {
    uint8_t fault[SBLOG_FAULT_SIZE], state[STATE_LIMIT], reports[MESSAGES * SBLOG_REPORT_LIMIT], code[CODE_LIMIT];
    size_t code_len;
} now, before;

static sblog_handle *handle;
static uint8_t file[HEADER + 8 * 1024];
static size_t file_len, state_len;
static uint8_t messages[MESSAGES * SBLOG_MESSAGE_SIZE];

/* How often memory was asked for, which refuse.c counts, where it is loaded. */
extern long refuse_requests(void) __attribute__((weak));

static long requests(void) { return refuse_requests ? refuse_requests() : 0; }

static uint32_t check(void) { return sblog_check(file, file_len, now.fault, sizeof now.fault); }

static uint32_t call(void) {
    return sblog_call(file, file_len, now.state, state_len, messages, SBLOG_MESSAGE_SIZE, 1, 0, 2, now.reports,
                      sizeof now.reports);
}

static uint32_t call_many(void) {
    return sblog_call_many(file, file_len, now.state, state_len, messages, sizeof messages, 1, 0, 2, now.reports,
                           sizeof now.reports);
}

/* What stands in the handle before is overwritten, by null where the file is refused. */
static uint32_t open_file(void) {
    handle = (sblog_handle *)file;
    uint32_t code = sblog_open(file, file_len, &handle);
    return (code == SBLOG_DONE) == (handle != NULL) ? code : WRONG;
}

static uint32_t length(void) { return sblog_state_len(handle) == state_len ? SBLOG_DONE : WRONG; }

static uint32_t run(void) {
    return sblog_run(handle, now.state, state_len, messages, sizeof messages, 1, 0, 2, now.reports, sizeof now.reports);
}

static uint32_t compile(void) { return sblog_compile(handle, now.code, sizeof now.code, &now.code_len); }

static uint32_t native_report(void) {
    static const uint8_t record[RECORD]; /* no steps, sends and outputs */
    return sblog_native_report(7, record, sizeof record, now.reports, sizeof now.reports);
}

static uint32_t close_handle(void) {
    sblog_close(handle);
    handle = NULL;
    return SBLOG_DONE;
}

/* A new export is a line here: its name, how it is called, whether it may ask for memory, and its codes for
   an image of form 1 or 3 and for one of form 2. */
static const struct export {
    const char *name;
    uint32_t (*call)(void);
    int asks;
    uint32_t codes[2];
} exports[] = {
    {"sblog_open", open_file, 1, {SBLOG_DONE, SBLOG_DONE}},
    {"sblog_state_len", length, 0, {SBLOG_DONE, SBLOG_DONE}},
    {"sblog_run", run, 0, {SBLOG_DONE, SBLOG_FORM}},
    {"sblog_check", check, 1, {SBLOG_DONE, SBLOG_DONE}},
    {"sblog_call", call, 1, {SBLOG_DONE, SBLOG_FORM}},
    {"sblog_call_many", call_many, 1, {SBLOG_DONE, SBLOG_FORM}},
    {"sblog_run", run, 0, {SBLOG_DONE, SBLOG_FORM}},
    {"sblog_compile", compile, 1, {SBLOG_DONE, SBLOG_DONE}},
    {"sblog_native_report", native_report, 0, {SBLOG_DONE, SBLOG_DONE}},
    {"sblog_close", close_handle, 0, {SBLOG_DONE, SBLOG_DONE}},
    {"sblog_run", run, 0, {SBLOG_HANDLE, SBLOG_HANDLE}},
    {"sblog_compile", compile, 0, {SBLOG_HANDLE, SBLOG_HANDLE}},
    {"sblog_close", close_handle, 0, {SBLOG_DONE, SBLOG_DONE}},
};

static uint64_t sum(void) {
    const uint8_t *bytes = (const uint8_t *)&now;
    uint64_t sum = 0;
    for (size_t at = 0; at < sizeof now; at++) sum = (sum ^ bytes[at]) * 0x100000001b3;
    return sum;
}

/* Makes a call, again where memory was refused. What was wrong, or nothing. */
static const char *made(const struct export *export) {
    long asked = requests();
    before = now;
    uint32_t code = export->call();
    if (!export->asks && requests() != asked) return "asks for memory";
    if (code == SBLOG_MEMORY) {
        if (memcmp(&before, &now, sizeof now)) return "has changed something";
        code = export->call();
    }
    if (code == SBLOG_MEMORY) return "answers want of memory twice";
    if (code != export->codes[file[3] == '2']) return "answers another code";
    printf("%s %u %016llx\n", export->name, code, (unsigned long long)sum());
    return NULL;
}

int main(int count, char **words) {
    static char line[1 << 12];
    int image = count == 2 ? open(words[1], O_RDONLY) : -1;
    ssize_t size = image < 0 ? -1 : read(image, file, sizeof file);
    if (size < HEADER || (file[3] < '1' || file[3] > '3')) return 2;
    file_len = size;
    state_len = file[4] | file[5] << 8;
    if (state_len > STATE_LIMIT) return 2;
    setvbuf(stdout, line, _IOFBF, sizeof line);
    for (int at = 0; at < MESSAGES; at++) messages[at * SBLOG_MESSAGE_SIZE] = 5 + at;
    for (size_t at = 0; at < sizeof exports / sizeof *exports; at++) {
        const char *wrong = made(exports + at);
        if (wrong) return printf("%s %s\n", exports[at].name, wrong), 1;
    }
    return 0;
}
