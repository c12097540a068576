/* Kills its program before the n-th call that changes a file: write, pwrite, fsync, fdatasync, rename, ftruncate, unlink. It is loaded
   in front of the C library, and DIE_AT is n. A write of an even n is cut in half first. If DIE_ON names one of them, or openat to
   write, the n-th of these counts. If FAIL is set, that call fails once instead: EIO, and a line says so. If HANG is set, it never
   answers. */
#include <dlfcn.h>
#include <errno.h>
#include <fcntl.h>
#include <signal.h>
#include <stdarg.h>
#include <stdio.h>
#include <stdlib.h>
#include <string.h>
#include <sys/stat.h>
#include <sys/types.h>
#include <sys/uio.h>
#include <unistd.h>

static _Atomic long calls;

/* Whether this is the call to die at. */
static int is_last(const char *call) {
    const char *at = getenv("DIE_AT"), *on = getenv("DIE_ON");
    return at && !strcmp(call, on ? on : call) && ++calls == atol(at);
}

static int die(void) {
    while (getenv("HANG")) pause();
    if (!getenv("FAIL")) kill(getpid(), SIGKILL);
    dprintf(STDERR_FILENO, "the disk fails\n");
    errno = EIO;
    return -1;
}

static void *next(const char *name) { return dlsym(RTLD_NEXT, name); }

static int is_file(int file) {
    struct stat about;
    return fstat(file, &about) == 0 && S_ISREG(about.st_mode);
}

ssize_t write(int file, const void *bytes, size_t size) {
    ssize_t (*real)(int, const void *, size_t) = next("write");
    if (is_file(file) && is_last("write")) {
        if (calls % 2 == 0) real(file, bytes, size / 2);
        return die();
    }
    return real(file, bytes, size);
}

ssize_t pwrite64(int file, const void *bytes, size_t size, off_t at) {
    ssize_t (*real)(int, const void *, size_t, off_t) = next("pwrite64");
    if (is_last("pwrite")) {
        if (calls % 2 == 0) real(file, bytes, size / 2, at);
        return die();
    }
    return real(file, bytes, size, at);
}

ssize_t pwrite(int file, const void *bytes, size_t size, off_t at) { return pwrite64(file, bytes, size, at); }

/* It is cut in the midst of its last part. */
ssize_t pwritev64(int file, const struct iovec *parts, int count, off_t at) {
    ssize_t (*real)(int, const struct iovec *, int, off_t) = next("pwritev64");
    if (is_last("pwrite")) {
        if (calls % 2 == 0) {
            real(file, parts, count - 1, at);
            for (int i = 0; i < count - 1; i++) at += (off_t)parts[i].iov_len;
            pwrite(file, parts[count - 1].iov_base, parts[count - 1].iov_len / 2, at);
        }
        return die();
    }
    return real(file, parts, count, at);
}

ssize_t pwritev(int file, const struct iovec *parts, int count, off_t at) { return pwritev64(file, parts, count, at); }

int fsync(int file) {
    if (is_last("fsync")) return die();
    return ((int (*)(int))next("fsync"))(file);
}

int fdatasync(int file) {
    if (is_last("fdatasync")) return die();
    return ((int (*)(int))next("fdatasync"))(file);
}

int renameat(int from, const char *old, int to, const char *new) {
    if (is_last("rename")) return die();
    return ((int (*)(int, const char *, int, const char *))next("renameat"))(from, old, to, new);
}

int rename(const char *old, const char *new) {
    if (is_last("rename")) return die();
    return ((int (*)(const char *, const char *))next("rename"))(old, new);
}

int ftruncate64(int file, off_t size) {
    if (is_last("ftruncate")) return die();
    return ((int (*)(int, off_t))next("ftruncate64"))(file, size);
}

int ftruncate(int file, off_t size) { return ftruncate64(file, size); }

int unlink(const char *path) {
    if (access(path, F_OK) == 0 && is_last("unlink")) return die();
    return ((int (*)(const char *))next("unlink"))(path);
}

int openat(int folder, const char *path, int flags, ...) {
    va_list rest;
    va_start(rest, flags);
    mode_t mode = flags & O_CREAT ? va_arg(rest, mode_t) : 0;
    va_end(rest);
    if ((flags & O_ACCMODE) != O_RDONLY && getenv("DIE_ON") && is_last("openat")) return die();
    return ((int (*)(int, const char *, int, ...))next("openat"))(folder, path, flags, mode);
}
