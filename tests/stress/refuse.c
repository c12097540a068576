/* Refuses a program memory, and counts what it takes. It is loaded in front of the C library:

       REFUSE=5 COUNTS=file LD_PRELOAD=./refuse.so program words

   REFUSE has the number of the request that is refused, from 1; with a + behind it all later ones are,
   too. At the program's end the file of COUNTS has a line of four numbers: how many requests there
   were, how many of them were refused, and how many blocks the program itself took and gave back.
   Requests of the C library count as requests, and their blocks, which it may keep, don't count.
   refuse_requests tells a program how many requests there were so far, refuse_refused how many were refused. */
#define _GNU_SOURCE
#include <errno.h>
#include <fcntl.h>
#include <link.h>
#include <stdatomic.h>
#include <stdio.h>
#include <stdlib.h>
#include <sys/syscall.h>
#include <unistd.h>

extern void *__libc_malloc(size_t size);
extern void *__libc_calloc(size_t count, size_t size);
extern void *__libc_realloc(void *block, size_t size);
extern void *__libc_memalign(size_t alignment, size_t size);
extern void __libc_free(void *block);

static atomic_long requests, refused, taken, given_back;
static long first = -1, last = -1;
static uintptr_t begin, end;

long refuse_requests(void) { return atomic_load(&requests); }
long refuse_refused(void) { return atomic_load(&refused); }

/* The first object is the program. */
static int of_program(struct dl_phdr_info *object, size_t size, void *unused) {
    (void)size, (void)unused;
    for (int at = 0; at < object->dlpi_phnum; at++) {
        const ElfW(Phdr) *part = &object->dlpi_phdr[at];
        uintptr_t from = object->dlpi_addr + part->p_vaddr;
        if (part->p_type != PT_LOAD) continue;
        if (!begin || from < begin) begin = from;
        if (from + part->p_memsz > end) end = from + part->p_memsz;
    }
    return 1;
}

__attribute__((constructor)) static void start(void) {
    const char *which = getenv("REFUSE");
    char *rest = NULL;
    dl_iterate_phdr(of_program, NULL);
    atomic_store(&requests, 0);
    if (which) first = strtol(which, &rest, 10);
    last = rest && *rest == '+' ? __LONG_MAX__ : first;
}

__attribute__((destructor)) static void stop(void) {
    const char *path = getenv("COUNTS");
    char line[96];
    int file = path ? open(path, O_WRONLY | O_CREAT | O_TRUNC, 0600) : -1;
    if (file < 0) return;
    int size = snprintf(line, sizeof line, "%ld %ld %ld %ld\n", atomic_load(&requests), atomic_load(&refused),
                        atomic_load(&taken), atomic_load(&given_back));
    if (write(file, line, size) != size) abort();
    close(file);
}

/* A program that has threads ends by this call, which runs no destructor. */
void _exit(int status) {
    stop();
    for (;;) syscall(SYS_exit_group, status);
}

static int is_refused(void) {
    long number = atomic_fetch_add(&requests, 1) + 1;
    if (number < first || number > last) return 0;
    atomic_fetch_add(&refused, 1);
    errno = ENOMEM;
    return 1;
}

static int is_own(const void *caller) { return (uintptr_t)caller >= begin && (uintptr_t)caller < end; }

static void *took(void *block, const void *caller) {
    if (block && is_own(caller)) atomic_fetch_add(&taken, 1);
    return block;
}

void *malloc(size_t size) {
    return is_refused() ? NULL : took(__libc_malloc(size), __builtin_return_address(0));
}

void *calloc(size_t count, size_t size) {
    return is_refused() ? NULL : took(__libc_calloc(count, size), __builtin_return_address(0));
}

void *realloc(void *block, size_t size) {
    if (is_refused()) return NULL;
    void *moved = __libc_realloc(block, size);
    return block ? moved : took(moved, __builtin_return_address(0));
}

void *aligned_alloc(size_t alignment, size_t size) {
    return is_refused() ? NULL : took(__libc_memalign(alignment, size), __builtin_return_address(0));
}

int posix_memalign(void **block, size_t alignment, size_t size) {
    if (is_refused()) return ENOMEM;
    *block = took(__libc_memalign(alignment, size), __builtin_return_address(0));
    return *block ? 0 : ENOMEM;
}

void free(void *block) {
    if (block && is_own(__builtin_return_address(0))) atomic_fetch_add(&given_back, 1);
    __libc_free(block);
}
