/* ordinary ROUNDS MESSAGES IMAGE ..: what a call of a handler of form 3 costs by sblog_run, and by DPDK's interpreter of
   BPF. Each gets the 300 messages of a file, of 64 bytes each, from a state of zeros, in turn, round by round; a figure is
   the least of the rounds, of the thread's own time. Before that both have to leave the same state and the same r0s. A
   handler that either doesn't take is counted and passed over: DPDK's interpreter has no jumps of 32 bits. */
#define _POSIX_C_SOURCE 199309L
#include <inttypes.h>
#include <stdio.h>
#include <stdlib.h>
#include <string.h>
#include <time.h>

#include "sblog.h"

enum { MESSAGES = 300, MESSAGE = SBLOG_MESSAGE_SIZE, REGION = 512, STATE = 1024, EFFECTS = 8, PAYLOAD = 256, FRONT = 3, COUNT = 15 };

/* What DPDK's library takes, as rte_bpf.h has it. */
struct argument { uint32_t type; size_t size, buffer; };
struct symbol { const char *name; uint32_t type; void *value; uint32_t count; struct argument arguments[5], result; };
struct program { const uint64_t *code; uint32_t count; const struct symbol *symbols; uint32_t symbol_count; struct argument argument; };
/* A loaded program begins with what it was loaded from, and its interpreter reads nothing else. */
struct loaded { struct program program; uint64_t rest[64]; };
uint64_t rte_bpf_exec(const struct loaded *program, void *context);

static struct { uint64_t to, length; uint8_t bytes[PAYLOAD]; } sends[EFFECTS], outputs[EFFECTS];
static uint64_t sent, put_out;

static uint64_t send_sized(uint64_t to, const void *bytes, uint64_t length) {
    if (to < 1 || to > COUNT || to == 1) return 1;
    if (sent == EFFECTS) return 2;
    if (length > PAYLOAD) return 3;
    sends[sent].to = to, sends[sent].length = length;
    memcpy(sends[sent++].bytes, bytes, length);
    return 0;
}

static uint64_t output_sized(const void *bytes, uint64_t length) {
    if (put_out == EFFECTS) return 2;
    if (length > PAYLOAD) return 3;
    outputs[put_out].length = length;
    memcpy(outputs[put_out++].bytes, bytes, length);
    return 0;
}

static uint64_t send_64(uint64_t to, const void *bytes) { return send_sized(to, bytes, 64); }
static uint64_t output_64(const void *bytes) { return output_sized(bytes, 64); }
static uint64_t me(void) { return 1; }
static uint64_t sender(void) { return 0; }

static const struct symbol symbols[] = {
    {.name = "send", .value = (void *)send_64}, {.name = "output", .value = (void *)output_64},
    {.name = "me", .value = (void *)me}, {.name = "sender", .value = (void *)sender},
    {.name = "send_sized", .value = (void *)send_sized}, {.name = "output_sized", .value = (void *)output_sized},
};

static uint8_t file[8 + 8 * 1024], messages[MESSAGES * MESSAGE], reports[MESSAGES * SBLOG_REPORT_LIMIT];
static uint64_t code[FRONT + 1024];

static void demand(int holds, const char *name, const char *what) {
    if (holds) return;
    fprintf(stderr, "%s: %s\n", name, what);
    exit(1);
}

/* The handler for DPDK: it is given the message's place alone, so three instructions in front make r2 and r3. 0: it has
   an instruction that DPDK's interpreter hasn't. */
static uint32_t translated(size_t len) {
    uint32_t count = 0;
    code[count++] = 0x12bf;
    code[count++] = 0x0207 | (uint64_t)REGION << 32;
    code[count++] = 0x03b7 | (uint64_t)MESSAGE << 32;
    for (size_t at = 8; at < len; at += 8) {
        uint64_t word;
        memcpy(&word, file + at, 8);
        uint8_t opcode = (uint8_t)word;
        if ((opcode & 7) == 6 || (opcode & 0xe7) == 0x81 || opcode == 0xd7) return 0;
        if (((opcode & 7) == 4 || (opcode & 7) == 7) && (word >> 16 & 0xffff) != 0) return 0;
        if (opcode == 0x85) word -= (uint64_t)1 << 32;
        code[count++] = word;
    }
    return count;
}

static size_t read_file(const char *name, uint8_t *bytes, size_t most) {
    FILE *from = fopen(name, "rb");
    demand(from != NULL, name, "can't be read");
    size_t len = fread(bytes, 1, most, from);
    fclose(from);
    return len;
}

static double now(void) {
    struct timespec t;
    clock_gettime(CLOCK_THREAD_CPUTIME_ID, &t);
    return (double)t.tv_sec * 1e9 + (double)t.tv_nsec;
}

static double run_ours(sblog_handle *handle, uint8_t *state, size_t len) {
    memset(state, 0, len);
    double before = now();
    uint32_t said = sblog_run(handle, state, len, messages, sizeof messages, 1, 0, COUNT, reports, sizeof reports);
    double after = now();
    demand(said == SBLOG_DONE, "sblog_run", "is refused");
    return after - before;
}

static double run_other(const struct loaded *program, uint8_t *context, size_t len, uint64_t *r0) {
    memset(context, 0, REGION + len);
    double before = now();
    for (int i = 0; i < MESSAGES; i++) {
        memcpy(context, messages + i * MESSAGE, MESSAGE);
        sent = put_out = 0;
        r0[i] = rte_bpf_exec(program, context);
    }
    return now() - before;
}

static int by_size(const void *a, const void *b) {
    double x = *(const double *)a, y = *(const double *)b;
    return (x > y) - (x < y);
}

/* One handler: how long both take, and the ratios by the instruction and by the call. */
static int measure(const char *image, int rounds, double *by_instruction, double *by_call) {
    static uint8_t state[STATE], context[REGION + STATE];
    static uint64_t r0[MESSAGES];
    size_t size = read_file(image, file, sizeof file), at = 0;
    sblog_handle *handle = NULL;
    if (sblog_open(file, size, &handle) != SBLOG_DONE) return 0;
    size_t len = sblog_state_len(handle);
    struct loaded program = {{code, translated(size), symbols, 6, {0, 0, 0}}, {0}};
    if (program.program.count == 0) return sblog_close(handle), 0;
    run_ours(handle, state, len);
    run_other(&program, context, len, r0);
    demand(memcmp(state, context + REGION, len) == 0, image, "the states differ");
    double steps = 0, ours = 1e18, other = 1e18;
    for (int i = 0; i < MESSAGES; i++) {
        demand(sblog_number(reports + at) == r0[i], image, "an r0 differs");
        steps += (double)sblog_number(reports + at + 8) / MESSAGES;
        at += sblog_report_size(reports + at);
    }
    for (int i = 0; i < rounds; i++) {
        double a = run_ours(handle, state, len) / MESSAGES, b = run_other(&program, context, len, r0) / MESSAGES;
        if (a < ours) ours = a;
        if (b < other) other = b;
    }
    sblog_close(handle);
    *by_call = ours / other;
    *by_instruction = ours / steps / (other / (steps + FRONT));
    printf("%s: %.1f instructions a call; %.1f ns a call, DPDK's %.1f; %.2f and %.2f ns an instruction; ratio %.2f by the instruction, %.2f by the call\n",
           image, steps, ours, other, ours / steps, other / (steps + FRONT), *by_instruction, *by_call);
    return 1;
}

int main(int argc, char **argv) {
    static double by_instruction[256], by_call[256];
    int rounds = argc > 1 ? atoi(argv[1]) : 0, count = 0;
    demand(argc > 2 && read_file(argv[2], messages, sizeof messages) == sizeof messages, "messages", "are not 300");
    for (int i = 3; i < argc && count < 256; i++) count += measure(argv[i], rounds, by_instruction + count, by_call + count);
    if (count == 0) return 1;
    qsort(by_instruction, (size_t)count, sizeof(double), by_size);
    qsort(by_call, (size_t)count, sizeof(double), by_size);
    printf("%d of %d handlers: %.2f to DPDK's by the instruction (%.2f to %.2f), %.2f by the call (%.2f to %.2f), medians\n", count, argc - 3,
           by_instruction[count / 2], by_instruction[0], by_instruction[count - 1], by_call[count / 2], by_call[0], by_call[count - 1]);
    return 0;
}
