/* jit ROUNDS MESSAGES IMAGE ..: what a call of the machine code costs that sblog_compile writes, and of that of DPDK's JIT.
   Each gets the 300 messages of a file, of 64 bytes each, from a state of zeros, in turn, round by round; a figure is the
   least of the rounds, each of ten times these messages, of the thread's own time. Before each call the message is copied
   in and the counts of sends and outputs are set to 0; for ours, which shows a handler zeros there, that part of the stack
   is cleared too that the handler may write. Before that both have to leave the same state, r0s, sends and outputs. A
   handler that the JIT doesn't take, whose verifier walks every path, within three seconds is counted and passed over. */
#define _GNU_SOURCE
#include <inttypes.h>
#include <stdio.h>
#include <stdlib.h>
#include <sys/wait.h>
#include <time.h>
#include <unistd.h>

#define SBLOG_CALLS_CODE
#include "sblog.h"

enum { MESSAGES = 300, MESSAGE = SBLOG_MESSAGE_SIZE, STATE = 1024, EFFECTS = 8, PAYLOAD = 256, COUNT = 15, TIMES = 10, ALL = 512 };
enum { PLACE = 272, SENDS_AT = 64, OUTPUTS_AT = 2240, STEPS_AT = 16 };
enum { ANYTHING = 1, POINTER = 0x10 }; /* types of DPDK's arguments */

/* What DPDK's library takes, as rte_bpf.h has it. */
struct argument { uint32_t type; size_t size, buffer; };
struct symbol { const char *name; uint32_t type; void *value; uint32_t count; struct argument arguments[5], result; };
struct program { const uint64_t *code; uint32_t count; const struct symbol *symbols; uint32_t symbol_count; struct argument argument; };
struct jit { uint64_t (*code)(void *context); size_t size; };
void *rte_bpf_load(const struct program *program);
int rte_bpf_get_jit(const void *loaded, struct jit *jit);
void rte_bpf_destroy(void *loaded);

struct payload { uint64_t to, length; uint8_t bytes[PAYLOAD]; };
static struct payload sends[EFFECTS], outputs[EFFECTS];
static struct { uint64_t sends, outputs; } counts;

static uint64_t send_sized(uint64_t to, const void *bytes, uint64_t length) {
    if (to < 1 || to > COUNT || to == 1) return 1;
    if (counts.sends == EFFECTS) return 2;
    if (length > PAYLOAD) return 3;
    sends[counts.sends].to = to, sends[counts.sends].length = length;
    memcpy(sends[counts.sends++].bytes, bytes, length);
    return 0;
}

static uint64_t output_sized(const void *bytes, uint64_t length) {
    if (counts.outputs == EFFECTS) return 2;
    if (length > PAYLOAD) return 3;
    outputs[counts.outputs].length = length;
    memcpy(outputs[counts.outputs++].bytes, bytes, length);
    return 0;
}

static uint64_t send_64(uint64_t to, const void *bytes) {
    if (to < 1 || to > COUNT || to == 1) return 1;
    if (counts.sends == EFFECTS) return 2;
    sends[counts.sends].to = to, sends[counts.sends].length = 64;
    memcpy(sends[counts.sends++].bytes, bytes, 64);
    return 0;
}

static uint64_t output_64(const void *bytes) {
    if (counts.outputs == EFFECTS) return 2;
    outputs[counts.outputs].length = 64;
    memcpy(outputs[counts.outputs++].bytes, bytes, 64);
    return 0;
}

static uint64_t me(void) { return 1; }
static uint64_t sender(void) { return 0; }

#define TAKES(...) .arguments = {__VA_ARGS__}, .result = {ANYTHING, 8, 0}
static const struct symbol symbols[] = {
    {.name = "send", .value = (void *)send_64, .count = 2, TAKES({ANYTHING, 8, 0}, {POINTER, 64, 0})},
    {.name = "output", .value = (void *)output_64, .count = 1, TAKES({POINTER, 64, 0})},
    {.name = "me", .value = (void *)me, TAKES({0, 0, 0})},
    {.name = "sender", .value = (void *)sender, TAKES({0, 0, 0})},
    {.name = "send_sized", .value = (void *)send_sized, .count = 3, TAKES({ANYTHING, 8, 0}, {ANYTHING, 8, 0}, {ANYTHING, 8, 0})},
    {.name = "output_sized", .value = (void *)output_sized, .count = 2, TAKES({ANYTHING, 8, 0}, {ANYTHING, 8, 0})},
};

/* A handler, as both have it. Its context there is the message, the state behind its region, and nothing else. */
struct handler {
    const char *name;
    int form;
    size_t region, state_len, stack; /* bytes; of the stack those that it may write */
    uint8_t *lowest; /* of these, in blocks of 16 */
    size_t blocks;
    sblog_native_code code;
    size_t size;
    void *loaded;
    struct jit jit;
};

static uint8_t file[8 + 8 * 1024], code[1 << 20], messages[MESSAGES * MESSAGE];
static uint8_t array[SBLOG_SPAN_ARRAY_SIZE], record[SBLOG_RECORD_SIZE], context[512 + STATE];
static uint64_t translated[3 + 1024];

static void demand(int holds, const char *name, const char *what) {
    if (holds) return;
    fprintf(stderr, "%s: %s\n", name, what);
    exit(1);
}

/* Which of the opcodes of images DPDK has: no jumps of 32 bits, and nothing of version 4 of the set. */
static int is_known(uint64_t word) {
    uint8_t opcode = (uint8_t)word, class = opcode & 7;
    int offset = (int)(word >> 16 & 0xffff);
    if (class == 6 || (opcode & 0xe7) == 0x81 || opcode == 0xd7) return 0;
    return (class != 4 && class != 7) || offset == 0;
}

/* The handler for DPDK: it is given the message's place alone, so instructions in front make r2 and r3. 0: it has an
   instruction that DPDK hasn't. */
static uint32_t translate(const struct handler *handler, size_t len) {
    uint32_t count = 0;
    translated[count++] = 0x12bf;
    translated[count++] = 0x0207 | (uint64_t)handler->region << 32;
    if (handler->form > 1) translated[count++] = 0x03b7 | (uint64_t)MESSAGE << 32;
    for (size_t at = 8; at < len; at += 8) {
        uint64_t word;
        memcpy(&word, file + at, 8);
        if (!is_known(word)) return 0;
        if ((uint8_t)word == 0x85) word -= (uint64_t)1 << 32;
        translated[count++] = word;
        if ((uint8_t)word == 0x18) memcpy(translated + count++, file + (at += 8), 8);
    }
    return count;
}

/* How much of the stack the code may write: from the lowest place on that it takes of r10, all of it where a place isn't
   one that is known at once. */
static size_t stack_of(size_t len) {
    long lowest = 0;
    for (size_t at = 8; at < len; at += 8) {
        const uint8_t *i = file + at;
        int class = i[0] & 7, dst = i[1] & 15, src = i[1] >> 4;
        int16_t offset;
        int32_t number = 0;
        memcpy(&offset, i + 2, 2);
        long place = (class == 2 || class == 3) && dst == 10 ? offset : 0;
        if (i[0] == 0xbf && src == 10) {
            int adds = i[8] == 0x07 && (i[9] & 15) == dst;
            memcpy(&number, i + 12, 4);
            place = adds && number < 0 ? number : -SBLOG_STACK_SIZE;
        }
        if (place < lowest) lowest = place;
        if (i[0] == 0x18) at += 8;
    }
    return (size_t)-lowest;
}

static size_t read_file(const char *name, uint8_t *bytes, size_t most) {
    FILE *from = fopen(name, "rb");
    demand(from != NULL, name, "can't be read");
    size_t len = fread(bytes, 1, most, from);
    fclose(from);
    return len;
}

/* Whether DPDK's verifier takes a program in time. */
static int is_taken(const struct program *program) {
    pid_t child = fork();
    demand(child >= 0, "fork", "fails");
    if (child == 0) {
        alarm(3);
        _exit(rte_bpf_load(program) == NULL);
    }
    int status = 1;
    waitpid(child, &status, 0);
    return WIFEXITED(status) && WEXITSTATUS(status) == 0;
}

static int load_other(struct handler *handler, size_t len) {
    struct program program = {translated, translate(handler, len), symbols, 6, {POINTER, handler->region + handler->state_len, 0}};
    if (program.count == 0 || !is_taken(&program)) return 0;
    handler->loaded = rte_bpf_load(&program);
    demand(handler->loaded != NULL, handler->name, "is taken once and refused then");
    rte_bpf_get_jit(handler->loaded, &handler->jit);
    return handler->jit.code != NULL;
}

/* Both codes of an image; 0 where one of them can't be had. */
static int load(struct handler *handler) {
    size_t len = read_file(handler->name, file, sizeof file);
    sblog_handle *handle = NULL;
    if (sblog_open(file, len, &handle) != SBLOG_DONE) return 0;
    handler->form = file[3] - '0';
    handler->region = handler->form == 3 ? SBLOG_SPAN_STATE_AT : SBLOG_STATE_AT;
    handler->state_len = sblog_state_len(handle);
    handler->stack = stack_of(len);
    handler->blocks = (handler->stack + 15) / 16;
    handler->lowest = array + handler->region + handler->state_len + SBLOG_STACK_SIZE - 16 * handler->blocks;
    demand(sblog_compile(handle, code, sizeof code, &handler->size) == SBLOG_DONE, handler->name, "isn't compiled");
    sblog_close(handle);
    if (!load_other(handler, len)) return 0;
    handler->code = sblog_map(code, handler->size);
    demand(handler->code != NULL, handler->name, "isn't mapped");
    return 1;
}

/* The state of zeros, and who is called. */
static void begin(void) {
    const uint64_t front[6] = {0, 0, 0, 1, 0, COUNT};
    memset(array, 0, sizeof array);
    memset(context, 0, sizeof context);
    memcpy(record, front, sizeof front);
}

/* Clears so many blocks of 16 bytes of the stack, from the lowest on. */
static inline uint64_t call_ours(sblog_native_code native, uint8_t *stack, size_t blocks, const uint8_t *message) {
    memcpy(array, message, MESSAGE);
    memset(record, 0, 16);
    for (size_t k = 0; k < blocks; k++) memset(stack + 16 * k, 0, 16);
    return native(array, record, MESSAGE);
}

static inline uint64_t call_other(uint64_t (*other)(void *), const uint8_t *message) {
    memcpy(context, message, MESSAGE);
    counts.sends = counts.outputs = 0;
    return other(context);
}

static double now(void) {
    struct timespec t;
    clock_gettime(CLOCK_THREAD_CPUTIME_ID, &t);
    return (double)t.tv_sec * 1e9 + (double)t.tv_nsec;
}

static double time_ours(const struct handler *handler, uint64_t *sum) {
    sblog_native_code native = handler->code;
    uint8_t *stack = handler->lowest;
    size_t blocks = handler->blocks;
    uint64_t local = 0;
    begin();
    double before = now();
    for (int k = 0; k < TIMES; k++)
        for (int i = 0; i < MESSAGES; i++) local += call_ours(native, stack, blocks, messages + i * MESSAGE);
    double after = now();
    *sum += local;
    return (after - before) / (TIMES * MESSAGES);
}

static double time_other(const struct handler *handler, uint64_t *sum) {
    uint64_t (*other)(void *) = handler->jit.code, local = 0;
    begin();
    double before = now();
    for (int k = 0; k < TIMES; k++)
        for (int i = 0; i < MESSAGES; i++) local += call_other(other, messages + i * MESSAGE);
    double after = now();
    *sum += local;
    return (after - before) / (TIMES * MESSAGES);
}

static void compare_effects(const char *name, const uint8_t *places, uint64_t count, const struct payload *others, uint64_t other, int sends_them) {
    demand(count == other, name, "sends or outputs more or fewer");
    for (uint64_t i = 0; i < count; i++) {
        const uint8_t *place = places + i * PLACE;
        if (sends_them) demand(sblog_number(place) == others[i].to, name, "a destination differs");
        demand(sblog_number(place + 8) == others[i].length, name, "a length differs");
        demand(memcmp(place + 16, others[i].bytes, others[i].length) == 0, name, "a payload differs");
    }
}

/* Calls both by each message, and compares; how many steps a call takes. */
static double compare(const struct handler *handler) {
    double steps = 0;
    begin();
    for (int i = 0; i < MESSAGES; i++) {
        uint64_t ours = call_ours(handler->code, handler->lowest, handler->blocks, messages + i * MESSAGE);
        uint64_t other = call_other(handler->jit.code, messages + i * MESSAGE);
        demand(ours == other, handler->name, "an r0 differs");
        demand(memcmp(array + handler->region, context + handler->region, handler->state_len) == 0, handler->name, "the states differ");
        compare_effects(handler->name, record + SENDS_AT, sblog_number(record), sends, counts.sends, 1);
        compare_effects(handler->name, record + OUTPUTS_AT, sblog_number(record + 8), outputs, counts.outputs, 0);
        steps += (double)sblog_number(record + STEPS_AT) / MESSAGES;
    }
    return steps;
}

/* One handler: how long both take, and the ratio. */
static double measure(const struct handler *handler, int rounds) {
    double steps = compare(handler), ours = 1e18, other = 1e18;
    uint64_t sums[2] = {0, 0};
    for (int i = 0; i < rounds; i++) {
        double a = time_ours(handler, sums), b = time_other(handler, sums + 1);
        if (a < ours) ours = a;
        if (b < other) other = b;
    }
    demand(sums[0] == sums[1], handler->name, "the sums of r0 differ");
    printf("%s: form %d, %.1f instructions a call, %zu bytes of stack; %zu bytes of code, %.2f ns a call; the JIT's %zu bytes, %.2f ns; ratio %.2f\n",
           handler->name, handler->form, steps, handler->stack, handler->size, ours, handler->jit.size, other, ours / other);
    return ours / other;
}

static int by_size(const void *a, const void *b) {
    double x = *(const double *)a, y = *(const double *)b;
    return (x > y) - (x < y);
}

static void tell(const char *which, double *ratios, int count) {
    if (count == 0) return;
    int beyond = 0;
    qsort(ratios, (size_t)count, sizeof(double), by_size);
    for (int i = 0; i < count; i++) beyond += ratios[i] > 1.3;
    double median = (ratios[count / 2] + ratios[(count - 1) / 2]) / 2;
    printf("%s: %d handlers, median %.2f of the JIT's (%.2f to %.2f), %d beyond 1.3\n", which, count, median, ratios[0], ratios[count - 1], beyond);
}

int main(int argc, char **argv) {
    static double all[ALL], of_form[4][ALL];
    int rounds = argc > 1 ? atoi(argv[1]) : 0, count = 0, found[4] = {0, 0, 0, 0};
    demand(argc > 2 && read_file(argv[2], messages, sizeof messages) == sizeof messages, "messages", "are not 300");
    for (int i = 3; i < argc && count < ALL; i++) {
        struct handler handler = {.name = argv[i]};
        if (!load(&handler)) continue;
        double ratio = measure(&handler, rounds);
        all[count++] = ratio, of_form[handler.form][found[handler.form]++] = ratio;
        sblog_unmap(handler.code, handler.size);
        rte_bpf_destroy(handler.loaded);
    }
    tell("form 1", of_form[1], found[1]);
    tell("form 2", of_form[2], found[2]);
    tell("form 3", of_form[3], found[3]);
    tell("all", all, count);
    return count == 0;
}
