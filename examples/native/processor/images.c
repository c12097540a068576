// Compiles images of all three forms, and calls each in three ways, on the same states and messages: by its machine code on
// this processor, by the same code in the emulator, and by the interpreter. Of the first two all registers and both blocks
// of memory are compared, of the first and the last all that a call leaves: r0, steps, state, sends and outputs.
#define _GNU_SOURCE
#include "chance.h"
#include <stdint.h>
#include <stdio.h>
#include <stdlib.h>
#include <string.h>
#include <sys/mman.h>

enum { CALLS = 20, ARRAY = 2048, FLAT_ARRAY = 1792, STATE_LIMIT = 1024, STACK = 512, RECORD = 4416, PAGES = 1 << 19, PAYLOAD = 256, EFFECTS = 8 };
enum { SENDS_AT = 64, OUTPUTS_AT = 2240, PLACE = 272 };

// Field by field those of `Facts`, `Report` and `Registers`.
struct facts { uint64_t form, state_len, slots, code_len; };
struct report {
    uint64_t r0, steps, sends, outputs, to[EFFECTS], sent_len[EFFECTS], output_len[EFFECTS];
    uint8_t sent[EFFECTS * PAYLOAD], output[EFFECTS * PAYLOAD];
};
struct registers { uint64_t numbers[16], blocks[16]; uint8_t long_[16]; uint64_t steps; };

uint32_t processor_compile(const uint8_t *file, size_t file_len, uint8_t *out, size_t out_len, struct facts *facts);
uint32_t processor_call(const uint8_t *file, size_t file_len, uint8_t *state, size_t state_len, const uint8_t *message,
                        size_t message_len, uint8_t me, uint8_t from, uint8_t count, struct report *report);
uint32_t processor_run(const uint8_t *code, size_t code_len, uint8_t *array, size_t array_len, uint8_t *record,
                       size_t record_len, struct registers *registers);

// ---- the processor

// What is loaded before the code, and what is stored behind it; 4 is rsp, which is left alone.
struct context { uint64_t registers[16], at; uint8_t long_[16]; };
struct context before, behind;

void run_code(void);

__asm__(".text\n"
        "run_code:\n"
        "push %rbx; push %rbp; push %r12; push %r13; push %r14; push %r15\n"
        "movups before+136(%rip), %xmm0\n"
        "mov before+0(%rip), %rax; mov before+8(%rip), %rcx; mov before+16(%rip), %rdx; mov before+24(%rip), %rbx\n"
        "mov before+40(%rip), %rbp; mov before+48(%rip), %rsi; mov before+56(%rip), %rdi\n"
        "mov before+64(%rip), %r8; mov before+72(%rip), %r9; mov before+80(%rip), %r10; mov before+88(%rip), %r11\n"
        "mov before+96(%rip), %r12; mov before+104(%rip), %r13; mov before+112(%rip), %r14; mov before+120(%rip), %r15\n"
        "call *before+128(%rip)\n"
        "mov %rax, behind+0(%rip); mov %rcx, behind+8(%rip); mov %rdx, behind+16(%rip); mov %rbx, behind+24(%rip)\n"
        "mov %rbp, behind+40(%rip); mov %rsi, behind+48(%rip); mov %rdi, behind+56(%rip)\n"
        "mov %r8, behind+64(%rip); mov %r9, behind+72(%rip); mov %r10, behind+80(%rip); mov %r11, behind+88(%rip)\n"
        "mov %r12, behind+96(%rip); mov %r13, behind+104(%rip); mov %r14, behind+112(%rip); mov %r15, behind+120(%rip)\n"
        "movups %xmm0, behind+136(%rip)\n"
        "pop %r15; pop %r14; pop %r13; pop %r12; pop %rbp; pop %rbx\n"
        "ret\n");

// ---- what is compared

static void put(uint8_t *at, uint64_t word) { memcpy(at, &word, 8); }

static uint64_t get(const uint8_t *at) {
    uint64_t word;
    memcpy(&word, at, 8);
    return word;
}

static int same_payload(const uint8_t *place, uint64_t len, const uint8_t *bytes) {
    return get(place + 8) == len && memcmp(place + 16, bytes, len) == 0;
}

static int same_effects(const uint8_t *record, const struct report *report) {
    if (get(record) != report->sends || get(record + 8) != report->outputs) return 0;
    for (uint64_t i = 0; i < report->sends; i++) {
        const uint8_t *place = record + SENDS_AT + PLACE * i;
        if (get(place) != report->to[i] || !same_payload(place, report->sent_len[i], report->sent + PAYLOAD * i)) return 0;
    }
    for (uint64_t i = 0; i < report->outputs; i++)
        if (!same_payload(record + OUTPUTS_AT + PLACE * i, report->output_len[i], report->output + PAYLOAD * i)) return 0;
    return 1;
}

static uint64_t steps_done, calls_done, effects_done, emulated, images_done[4], refused[4], slots_done[4], bytes_done[4];

static void demand(int holds, const char *what) {
    if (holds) return;
    uint64_t at = 0;
    for (int form = 1; form < 4; form++) at += images_done[form] + refused[form];
    fprintf(stderr, "image %llu: %s\n", (unsigned long long)at, what);
    exit(1);
}

// ---- a call

struct call { uint8_t array[ARRAY], record[RECORD], message[PAYLOAD]; size_t len, state_at, array_len; uint8_t me, from, count; };

// Message, state and caller, by chance but for the state; the places of the record hold anything.
static void lay(struct call *c, const struct facts *facts, const uint8_t *state) {
    static const int LENGTHS[] = {0, 1, 8, 32, 63, 64, 65, 200, 256};
    c->len = facts->form == 1 ? 64 : (size_t)LENGTHS[below(9)];
    c->state_at = facts->form == 3 ? 512 : 256;
    c->array_len = facts->form == 3 ? ARRAY : FLAT_ARRAY;
    for (size_t i = 0; i < c->len; i++) c->message[i] = (uint8_t)below(below(2) ? 256 : 4);
    c->count = (uint8_t)(1 + below(15)), c->me = (uint8_t)(1 + below(c->count)), c->from = (uint8_t)((c->me + 1 + below(c->count)) % (c->count + 1));
    memset(c->array, 0, ARRAY);
    memcpy(c->array, c->message, c->len);
    memcpy(c->array + c->state_at, state, facts->state_len);
    memset(c->record, 0xa5, RECORD);
    for (int i = 0; i < 3; i++) put(c->record + 8 * i, 0);
    put(c->record + 24, c->me), put(c->record + 32, c->from), put(c->record + 40, c->count);
}

// The code on the processor and in the emulator, from the same registers and blocks. What it answers on the processor.
static uint64_t run_both(const uint8_t *code, uint8_t *pages, struct call *c, size_t code_len) {
    static uint8_t array[ARRAY], record[RECORD];
    struct registers registers = {0};
    for (int r = 0; r < 16; r++) before.registers[r] = registers.numbers[r] = chance();
    registers.numbers[2] = c->len, registers.numbers[4] = registers.numbers[6] = registers.numbers[7] = 0;
    registers.blocks[7] = 1, registers.blocks[6] = 2;
    before.registers[2] = c->len, before.registers[6] = (uint64_t)c->record, before.registers[7] = (uint64_t)c->array;
    before.at = (uint64_t)pages;
    put(before.long_, chance()), put(before.long_ + 8, chance());
    memcpy(registers.long_, before.long_, 16);
    memcpy(array, c->array, ARRAY), memcpy(record, c->record, RECORD);
    demand(processor_run(code, code_len, array, c->array_len, record, RECORD, &registers) == 0, "doesn't return in the emulator");
    run_code();
    const uint64_t begins[] = {0, (uint64_t)c->array, (uint64_t)c->record};
    for (int r = 0; r < 16; r++)
        demand(r == 4 || behind.registers[r] == begins[registers.blocks[r]] + registers.numbers[r], "a register differs in the emulator");
    for (int r = 3; r < 16; r++)
        demand((r > 5 && r < 12) || r == 4 || behind.registers[r] == before.registers[r], "a register of the caller's was changed");
    demand(memcmp(behind.long_, registers.long_, 16) == 0, "xmm0 differs in the emulator");
    demand(memcmp(array, c->array, c->array_len) == 0, "the array differs in the emulator");
    demand(memcmp(record, c->record, RECORD) == 0, "the record differs in the emulator");
    emulated += registers.steps;
    return behind.registers[0];
}

static int is_zero(const uint8_t *bytes, size_t size) {
    for (size_t i = 0; i < size; i++)
        if (bytes[i]) return 0;
    return 1;
}

// One call by all three, on the state that the last one left.
static void call_all(const uint8_t *file, size_t size, const struct facts *facts, const uint8_t *code, uint8_t *pages, uint8_t *state) {
    static struct call c;
    static struct report report;
    lay(&c, facts, state);
    memset(&report, 0, sizeof report);
    demand(processor_call(file, size, state, facts->state_len, c.message, c.len, c.me, c.from, c.count, &report) == 0, "isn't called");
    demand(run_both(code, pages, &c, facts->code_len) == report.r0, "r0 differs");
    demand(get(c.record + 16) == report.steps, "the steps differ");
    demand(memcmp(c.array + c.state_at, state, facts->state_len) == 0, "the states differ");
    demand(memcmp(c.array, c.message, c.len) == 0 && is_zero(c.array + c.len, c.state_at - c.len), "the message was written");
    size_t end = c.state_at + facts->state_len + STACK;
    demand(is_zero(c.array + end, c.array_len - end), "bytes behind the stack were written");
    demand(same_effects(c.record, &report), "the effects differ");
    calls_done++, steps_done += report.steps, effects_done += report.sends + report.outputs;
}

static void compare(const uint8_t *file, size_t size, uint8_t *pages) {
    static uint8_t bytes[PAGES], state[STATE_LIMIT];
    struct facts facts;
    uint32_t code = processor_compile(file, size, bytes, sizeof bytes, &facts);
    if (code == 1) {
        refused[file[3] - '0']++;
        return;
    }
    demand(code == 0, "isn't compiled");
    demand(mprotect(pages, PAGES, PROT_READ | PROT_WRITE) == 0, "isn't mapped");
    memcpy(pages, bytes, facts.code_len);
    demand(mprotect(pages, PAGES, PROT_READ | PROT_EXEC) == 0, "isn't mapped");
    for (size_t i = 0; i < facts.state_len; i++) state[i] = (uint8_t)below(256);
    for (int i = 0; i < CALLS; i++) call_all(file, size, &facts, bytes, pages, state);
    images_done[facts.form]++, slots_done[facts.form] += facts.slots, bytes_done[facts.form] += facts.code_len;
}

int main(int count, char **names) {
    static uint8_t file[1 << 15];
    FILE *cases = count > 1 ? fopen(names[1], "rb") : NULL;
    uint8_t *pages = mmap(NULL, PAGES, PROT_READ | PROT_WRITE, MAP_PRIVATE | MAP_ANONYMOUS, -1, 0);
    uint32_t size;
    if (!cases || pages == MAP_FAILED) return 2;
    while (fread(&size, 4, 1, cases) == 1) {
        if (size > sizeof file || fread(file, 1, size, cases) != size) return 2;
        compare(file, size, pages);
    }
    for (int form = 1; form < 4; form++)
        printf("form %d: %llu images, %llu refused; %.1f instructions, %.1f bytes of code each\n", form,
               (unsigned long long)images_done[form], (unsigned long long)refused[form],
               (double)slots_done[form] / (double)images_done[form], (double)bytes_done[form] / (double)images_done[form]);
    printf("%llu calls, %llu steps, %llu instructions in the emulator, %llu sends and outputs, 0 differences\n", (unsigned long long)calls_done,
           (unsigned long long)steps_done, (unsigned long long)emulated, (unsigned long long)effects_done);
    return 0;
}
