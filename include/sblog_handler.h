/* What a handler in C needs of sblog, in images of form 3 (docs/HANDLERS.md). A handler is a function
 *
 *     u64 name(const void *message, void *state, u64 length)
 *
 * that is called once for each message: of 0 to 256 bytes, as `length` says, with zeros behind it up to
 * 512 bytes. It reads and writes its state, which has as many bytes as its image says, and calls the four
 * helpers below. What it returns means nothing to the runtime. It is compiled by clang:
 *
 *     clang --target=bpf -mcpu=v3 -O2 -g -Iinclude -c name.c -o name.o
 *     ./sblog pack name.o name.sbi --form 3 --state 64
 *
 * There is no other function to call. memcpy and memset are for a constant length alone: where it varies, an
 * unrolled loop compares the index with the length. There is no floating point: count in whole numbers.
 */
#ifndef SBLOG_HANDLER_H
#define SBLOG_HANDLER_H

typedef unsigned char u8;
typedef unsigned short u16;
typedef unsigned int u32;
typedef unsigned long long u64;
typedef signed char s8;
typedef short s16;
typedef int s32;
typedef long long s64;

/* The number of the own process, 1 to 15. */
static u64 (*const me)(void) = (void *)3;

/* The number of the process that sent the message, 0 for the outside; never more than 15, so it is an index. */
static u64 (*const sender)(void) = (void *)4;

/* Sends 0 to 256 bytes to another process, which neither the own one is nor the outside (0), that gets outputs:
 * 0, or 1 where there is no such other process, 2 where 8 messages were
 * sent by this call, 3 where the length is greater than 256. */
static u64 (*const send)(u64 process, const void *payload, u64 length) = (void *)5;

/* Gives 0 to 256 bytes as an output: 0, or 2 where there were 8 of this call, 3 where the length is greater than 256. */
static u64 (*const output)(const void *payload, u64 length) = (void *)6;

/* Above a loop of known length: clang writes it out, as there are no jumps back. */
#define unrolled _Pragma("clang loop unroll(full)")

/* First in an unrolled loop that clang leaves as one, since it has joined the tests of two ways out. */
#define turn() asm volatile("")

/* Above an access at an index that is at most `most` in a way that clang sees and the verifier doesn't. Of a greater one, or a
 * negative one, the function that it stands in returns 0: so it stands in none that is void. Of an index of fewer than 64 bits
 * clang would test a copy, so the tested one is put back. */
#define within(index, most) do { \
    if (sizeof(index) == 8) { \
        asm volatile("" : "+r"(index)); \
        if ((u64)(index) > (most)) return 0; \
    } else { \
        u64 within_ = (index); \
        asm volatile("" : "+r"(within_)); \
        if (within_ > (most)) return 0; \
        (index) = within_; \
    } \
} while (0)

/* So that clang says at the line what a handler doesn't have. An array's length is no variable, also no const one, but a number: by
 * `enum { N = 8 };` or `#define N 8`. Where it varies, the array has the greatest one. */
#ifdef __clang__
#pragma clang diagnostic error "-Wvla"
#endif
#define float there_is_no_floating_point_in_a_handler
#define double there_is_no_floating_point_in_a_handler

__attribute__((error("a handler has no memcpy or memset of a length that varies: in an unrolled loop compare the index with it")))
void *length_that_varies(void);
#define __builtin_memcpy(to, from, length) \
    (__builtin_constant_p(length) ? __builtin_memcpy(to, from, length) : length_that_varies())
#define __builtin_memset(to, byte, length) \
    (__builtin_constant_p(length) ? __builtin_memset(to, byte, length) : length_that_varies())
#define memcpy(to, from, length) __builtin_memcpy(to, from, length)
#define memset(to, byte, length) __builtin_memset(to, byte, length)

#endif
