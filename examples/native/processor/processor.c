// Runs each form's bytes on this processor and in the emulator, from the same registers, flags and memory, and compares.
#define _GNU_SOURCE
#include "chance.h"
#include <stdint.h>
#include <stdio.h>
#include <stdlib.h>
#include <string.h>
#include <sys/mman.h>

enum { BLOCK = 64, LONGEST = 16, DEEPEST = 4, GUARD = 64, REGION = 1 << 20, STACK = 64, FORMS = 36, PER_FORM = 4000, SHOWN = 20 };
enum { GOES, LEAPS, RETURNS, STUCK };
enum { WORD, ARRAY, RECORD };
enum { DIRECTION_BIT = 1 << 10, FLAG_BITS = 1 | 1 << 6 | 1 << 7 | 1 << 11 };

// Field by field the emulator's `Case`.
struct sample {
    uint64_t form, kind, wide, to, base, index, imm;
    uint64_t registers[16], blocks[16], flags;
    uint8_t long_[16], array[BLOCK], record[BLOCK];
    uint64_t pushed[DEEPEST], pushed_blocks[DEEPEST], pushes, next, distance;
    uint8_t bytes[LONGEST];
    uint64_t size;
};

uint32_t processor_step(struct sample *sample);

// ---- the processor

// What is loaded before the instruction, and what is stored behind it.
struct context {
    uint64_t registers[16]; // 4 is rsp
    uint64_t flags, way, at;
    uint8_t long_[16];
};
struct context before __attribute__((aligned(16))), behind __attribute__((aligned(16)));
uint64_t kept_stack;

void run_instruction(void);
extern const uint8_t way_goes[], way_leaps[], way_returns[];

__asm__(".text\n"
        "run_instruction:\n"
        "push %rbx; push %rbp; push %r12; push %r13; push %r14; push %r15; pushfq\n"
        "mov %rsp, kept_stack(%rip)\n"
        "movups before+152(%rip), %xmm0\n"
        "push before+128(%rip); popfq\n"
        "mov before+0(%rip), %rax; mov before+8(%rip), %rcx; mov before+16(%rip), %rdx; mov before+24(%rip), %rbx\n"
        "mov before+32(%rip), %rsp; mov before+40(%rip), %rbp; mov before+48(%rip), %rsi; mov before+56(%rip), %rdi\n"
        "mov before+64(%rip), %r8; mov before+72(%rip), %r9; mov before+80(%rip), %r10; mov before+88(%rip), %r11\n"
        "mov before+96(%rip), %r12; mov before+104(%rip), %r13; mov before+112(%rip), %r14; mov before+120(%rip), %r15\n"
        "jmp *before+144(%rip)\n"
        "way_goes: movq $0, behind+136(%rip); jmp 1f\n"
        "way_leaps: movq $1, behind+136(%rip); jmp 1f\n"
        "way_returns: movq $2, behind+136(%rip)\n"
        "1: mov %rax, behind+0(%rip); mov %rcx, behind+8(%rip); mov %rdx, behind+16(%rip); mov %rbx, behind+24(%rip)\n"
        "mov %rsp, behind+32(%rip); mov %rbp, behind+40(%rip); mov %rsi, behind+48(%rip); mov %rdi, behind+56(%rip)\n"
        "mov %r8, behind+64(%rip); mov %r9, behind+72(%rip); mov %r10, behind+80(%rip); mov %r11, behind+88(%rip)\n"
        "mov %r12, behind+96(%rip); mov %r13, behind+104(%rip); mov %r14, behind+112(%rip); mov %r15, behind+120(%rip)\n"
        "mov kept_stack(%rip), %rsp\n"
        "pushfq; pop behind+128(%rip)\n"
        "movups %xmm0, behind+152(%rip)\n"
        "popfq; pop %r15; pop %r14; pop %r13; pop %r12; pop %rbp; pop %rbx\n"
        "ret\n");

// ---- chance

// A word: any, near a power of two, or small.
static uint64_t word(void) {
    switch (below(6)) {
    case 0: return below(4);
    case 1: return -below(4);
    case 2: return ((uint64_t)1 << below(64)) + below(3) - 1;
    case 3: return -((uint64_t)1 << below(64)) + below(3) - 1;
    case 4: return chance() >> below(64);
    default: return chance();
    }
}

static void fill(uint8_t *bytes, size_t size) {
    for (size_t i = 0; i < size; i++) bytes[i] = (uint8_t)(chance() >> 32);
}

// ---- samples

static const char *const NAMES[FORMS] = {
    "Mov", "MovImm", "MovSigned", "MovWide", "MovSx", "MovZx", "Alu", "AluImm", "Test", "TestImm", "Mul", "MulImm",
    "Neg", "Shift", "ShiftBy", "SwapLow", "Swap", "Div", "SignedDiv", "Spread", "Load", "LoadSx", "Store", "StoreImm",
    "LoadLong", "StoreLong", "Lea", "LeaBy", "Jump", "JumpIf", "Push", "Pop", "CopyBytes", "Return",
    "JumpShort", "JumpIfShort"};

// How many operations, sizes, conditions or extensions a form has; whether it has a width; how many registers it names.
static const int KINDS[FORMS] = {[4] = 5, [6] = 6, [7] = 6, [13] = 3, [14] = 3, [20] = 4, [21] = 3, [22] = 4, [23] = 4, [29] = 10, [35] = 10};
static const int IS_WIDE[FORMS] = {[0] = 1, [6] = 1, 1, 1, 1, 1, 1, 1, 1, 1, [16] = 1, 1, 1, 1};
static const int NAMED[FORMS] = {2, 1, 1, 1, 2, 2, 2, 1, 2, 1, 2, 2, 1, 1, 1, 1, 1, 1, 1, 0,
                                 2, 2, 2, 2, 2, 2, 2, 3, 0, 0, 1, 1, 0, 0, 0, 0};

static void point(struct sample *s, uint64_t reg) {
    s->blocks[reg] = 1 + below(2);
    s->registers[reg] = below(BLOCK + 1);
}

// An offset that brings a base into its block, mostly.
static uint64_t displacement(const struct sample *s) {
    uint64_t at = below(8) == 0 ? below(2 * BLOCK) - BLOCK / 2 : below(BLOCK);
    return (uint32_t)(at - s->registers[s->base]);
}

static void divide(struct sample *s) {
    uint64_t low = s->wide ? UINT64_MAX : UINT32_MAX, sign = s->wide ? (uint64_t)1 << 63 : (uint64_t)1 << 31;
    s->blocks[0] = s->blocks[2] = WORD;
    if (s->to == 2 || below(16) == 0) return;
    s->registers[2] &= ~low;
    if (s->form == 18 && s->registers[0] & sign) s->registers[2] |= low;
}

// Registers, flags and memory by chance, so that the instruction mostly does something.
static void sample_state(struct sample *s) {
    for (int r = 0; r < 16; r++) {
        s->registers[r] = word();
        s->blocks[r] = WORD;
        if (below(12) == 0) point(s, r);
    }
    s->blocks[4] = WORD;
    s->registers[4] = 0;
    s->flags = 1 + 2 * below(16);
    fill(s->long_, 16);
    fill(s->array, BLOCK);
    fill(s->record, BLOCK);
    s->pushes = s->form == 33 ? below(8) == 0 : below(DEEPEST);
    for (uint64_t i = 0; i < s->pushes; i++) s->pushed[i] = word(), s->pushed_blocks[i] = WORD;
    s->imm = below(2) ? word() : (uint64_t)(int64_t)(int8_t)chance();
    if (s->form >= 20 && s->form <= 27) {
        if (s->form < 26 || below(2)) point(s, s->base);
        s->imm = s->form < 26 || below(2) ? displacement(s) : s->imm;
        if (s->form == 23) s->imm |= chance() << 32;
    }
    if (s->form == 28 || s->form == 29) {
        uint64_t far = below(2) ? 2 * REGION / 5 : 100, d = below(2 * far) - far;
        s->imm = (uint32_t)d | (below(2) ? chance() << 32 : 0);
    }
    if (s->form == 17 || s->form == 18) divide(s);
    if (s->form == 32) {
        s->blocks[1] = WORD, s->registers[1] = below(BLOCK);
        s->blocks[6] = ARRAY, s->registers[6] = below(BLOCK);
        s->blocks[7] = RECORD, s->registers[7] = below(BLOCK);
    }
}

// ---- both

static uint8_t *region, array_here[GUARD + BLOCK + GUARD], record_here[GUARD + BLOCK + GUARD];
static uint64_t stack_here[STACK];

static uint64_t address(uint64_t block, uint64_t number) {
    if (block == ARRAY) return (uint64_t)(array_here + GUARD) + number;
    if (block == RECORD) return (uint64_t)(record_here + GUARD) + number;
    return number;
}

// A jump to an address that stands behind it, which changes no register and no flag.
static void put_way(uint8_t *at, const uint8_t *to) {
    static const uint8_t JUMP[] = {0xff, 0x25, 0, 0, 0, 0};
    memcpy(at, JUMP, sizeof JUMP);
    memcpy(at + sizeof JUMP, &to, sizeof to);
}

enum { WAY = 14 };

// Lays the sample out; `leap` is where a jump is to come to, 0 for none.
static void lay(const struct sample *s, const struct sample *after, uint8_t **leap) {
    uint8_t *code = region + REGION / 2;
    memcpy(code, after->bytes, after->size);
    put_way(code + after->size, way_goes);
    int64_t d = (int32_t)after->distance;
    *leap = NULL;
    if (after->next == LEAPS && (d >= WAY || d + (int64_t)after->size <= -WAY)) {
        *leap = code + after->size + d;
        put_way(*leap, way_leaps);
    }
    for (int r = 0; r < 16; r++) before.registers[r] = address(s->blocks[r], s->registers[r]);
    const uint8_t *back = way_returns;
    memcpy(&stack_here[STACK / 2], &back, 8);
    for (uint64_t i = 0; i < s->pushes; i++)
        stack_here[STACK / 2 - 1 - i] = address(s->pushed_blocks[i], s->pushed[i]);
    before.registers[4] = (uint64_t)&stack_here[STACK / 2 - s->pushes];
    before.flags = 2 | (s->flags >> 1 & 1) | (s->flags >> 2 & 1) << 6 | (s->flags >> 3 & 1) << 7 | (s->flags >> 4 & 1) << 11;
    before.at = (uint64_t)code;
    memcpy(before.long_, s->long_, 16);
    memcpy(array_here + GUARD, s->array, BLOCK);
    memcpy(record_here + GUARD, s->record, BLOCK);
}

static const char *other(const struct sample *after, const uint8_t *array_guards, const uint8_t *record_guards) {
    if (behind.way != after->next) return "the way";
    for (int r = 0; r < 16; r++)
        if (r != 4 && behind.registers[r] != address(after->blocks[r], after->registers[r])) return "a register";
    uint64_t told = 1 | (behind.flags & 1) << 1 | (behind.flags >> 6 & 1) << 2 | (behind.flags >> 7 & 1) << 3 | (behind.flags >> 11 & 1) << 4;
    if (after->flags && told != after->flags) return "the flags";
    if (memcmp(behind.long_, after->long_, 16)) return "xmm0";
    if (memcmp(array_here + GUARD, after->array, BLOCK)) return "the array";
    if (memcmp(record_here + GUARD, after->record, BLOCK)) return "the record";
    if (memcmp(array_here, array_guards, GUARD) || memcmp(array_here + GUARD + BLOCK, array_guards + GUARD, GUARD)) return "beside the array";
    if (memcmp(record_here, record_guards, GUARD) || memcmp(record_here + GUARD + BLOCK, record_guards + GUARD, GUARD)) return "beside the record";
    uint64_t *top = (uint64_t *)behind.registers[4];
    uint64_t depth = after->next == RETURNS ? 0 : after->pushes;
    if (top != &stack_here[STACK / 2 + (after->next == RETURNS) - depth]) return "the stack's depth";
    for (uint64_t i = 0; i < depth; i++)
        if (stack_here[STACK / 2 - 1 - i] != address(after->pushed_blocks[i], after->pushed[i])) return "the stack";
    return NULL;
}

static void show(const struct sample *s, const struct sample *after, const char *what) {
    printf("%s %llu %llu, registers %llu %llu %llu, number %llx, bytes", NAMES[s->form], (unsigned long long)s->kind,
           (unsigned long long)s->wide, (unsigned long long)s->to, (unsigned long long)s->base,
           (unsigned long long)s->index, (unsigned long long)s->imm);
    for (uint64_t i = 0; i < after->size; i++) printf(" %02x", after->bytes[i]);
    printf(": %s differs\n", what);
}

// ---- the campaign

static uint64_t done[FORMS], stuck[FORMS], wrong;

// Once by both: 1 where it counts.
static int compare(struct sample *s) {
    static uint8_t array_guards[2 * GUARD], record_guards[2 * GUARD];
    sample_state(s);
    struct sample after = *s;
    uint32_t code = processor_step(&after);
    if (code != 0) {
        fprintf(stderr, "the emulator answers %u\n", code);
        exit(2);
    }
    if (after.next == STUCK) {
        stuck[s->form]++;
        return 0;
    }
    uint8_t *leap;
    lay(s, &after, &leap);
    if (after.next == LEAPS && leap == NULL) return 0; // it would come to what stands behind it
    fill(array_guards, sizeof array_guards);
    memcpy(array_here, array_guards, GUARD);
    memcpy(array_here + GUARD + BLOCK, array_guards + GUARD, GUARD);
    fill(record_guards, sizeof record_guards);
    memcpy(record_here, record_guards, GUARD);
    memcpy(record_here + GUARD + BLOCK, record_guards + GUARD, GUARD);
    run_instruction();
    if (leap) memset(leap, 0xcc, WAY);
    const char *what = other(&after, array_guards, record_guards);
    if (what && wrong++ < SHOWN) show(s, &after, what);
    done[s->form]++;
    return 1;
}

// Every form with each of its kinds, each width and each register in each place, some thousand times a form.
static uint64_t round_of(uint64_t limit) {
    uint64_t count = 0;
    for (int form = 0; form < FORMS; form++) {
        int kinds = KINDS[form] ? KINDS[form] : 1, widths = 1 + IS_WIDE[form];
        int tos = NAMED[form] > 0 ? 16 : 1, bases = NAMED[form] > 1 ? 16 : 1, indices = NAMED[form] > 2 ? 16 : 1;
        int all = kinds * widths * tos * bases * indices, times = all < PER_FORM ? PER_FORM / all : 1;
        for (int i = 0; i < all * times && count < limit; i++) {
            int at = i % all;
            struct sample s = {.form = form};
            s.kind = at % kinds, at /= kinds;
            s.wide = at % widths, at /= widths;
            s.to = at % tos, at /= tos;
            s.base = at % bases, at /= bases;
            s.index = at;
            count += compare(&s);
        }
    }
    return count;
}

int main(int words, char **word_at) {
    uint64_t wanted = words > 1 ? strtoull(word_at[1], NULL, 10) : 1000000, count = 0, rounds = 0;
    if (words > 2) seed ^= strtoull(word_at[2], NULL, 10) * 0x9e3779b97f4a7c15;
    region = mmap(NULL, REGION, PROT_READ | PROT_WRITE | PROT_EXEC, MAP_PRIVATE | MAP_ANONYMOUS, -1, 0);
    if (region == MAP_FAILED) return 2;
    memset(region, 0xcc, REGION);
    for (; count < wanted; rounds++) count += round_of(wanted - count);
    for (int form = 0; form < FORMS; form++)
        printf("%-10s %8llu run, %8llu of which nothing is said\n", NAMES[form], (unsigned long long)done[form], (unsigned long long)stuck[form]);
    printf("%llu cases in %llu rounds of all forms, %llu differences\n", (unsigned long long)count, (unsigned long long)rounds, (unsigned long long)wrong);
    return wrong != 0;
}
