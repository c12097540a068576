/* A store in a folder: files, and a lock that one life has at a time. */
#include "report.h"
#include "store.h"

#include <errno.h>
#include <fcntl.h>
#include <libgen.h>
#include <limits.h>
#include <stdio.h>
#include <stdlib.h>
#include <sys/file.h>
#include <sys/stat.h>
#include <unistd.h>

enum { MODE = 0600 };

/* A folder that was made is there after a loss of power, too. */
static int make_folder(const char *path) {
    if (mkdir(path, 0700) != 0) {
        if (errno == EEXIST) return STATUS_DONE;
        report_fault("%s", path);
        return STATUS_IO;
    }
    int made = open(path, O_RDONLY | O_DIRECTORY | O_CLOEXEC);
    int above = made < 0 ? -1 : openat(made, "..", O_RDONLY | O_DIRECTORY | O_CLOEXEC);
    bool synced = above >= 0 && fsync(above) == 0;
    if (!synced) report_fault("%s", path);
    if (above >= 0) close(above);
    if (made >= 0) close(made);
    return synced ? STATUS_DONE : STATUS_IO;
}

static int folder_open(struct store *store, const char *path) {
    int status = store->is_looked_at ? STATUS_DONE : make_folder(path);
    if (status != STATUS_DONE) return status;
    store->folder = open(path, O_RDONLY | O_DIRECTORY | O_CLOEXEC);
    if (store->folder >= 0 || (store->is_looked_at && errno == ENOENT)) return STATUS_DONE;
    report_fault("%s", path);
    return STATUS_IO;
}

static int take_lock(struct store *store, int makes) {
    store->lock = openat(store->folder, "lock", O_RDWR | makes | O_CLOEXEC, MODE);
    if (store->lock < 0 && errno == ENOENT && !makes) return STATUS_DONE;
    if (store->lock < 0) {
        report_fault("%s/lock", store->path);
        return STATUS_IO;
    }
    if (flock(store->lock, LOCK_EX | LOCK_NB) == 0) return STATUS_DONE;
    if (errno == EWOULDBLOCK) {
        report("%s: another life of this process has the store", store->path);
        return STATUS_STORE;
    }
    report_fault("%s/lock", store->path);
    return STATUS_IO;
}

/* Whether a folder can be written to: the store's, or the one that it would be made in. */
static bool is_writable(const struct store *store) {
    char above[4096];
    snprintf(above, sizeof above, "%s", store->path);
    return access(store->folder < 0 ? dirname(above) : store->path, W_OK | X_OK) == 0;
}

static int folder_claim(struct store *store) {
    if (!store->is_looked_at) return take_lock(store, O_CREAT);
    if (!is_writable(store)) {
        report_fault("%s", store->path);
        return STATUS_IO;
    }
    int status = store->folder < 0 ? STATUS_DONE : take_lock(store, 0);
    if (store->lock >= 0) close(store->lock);
    store->lock = -1;
    return status;
}

static bool write_all(int file, const uint8_t *bytes, size_t size) {
    while (size > 0) {
        ssize_t count = write(file, bytes, size);
        if (count < 0 && errno == EINTR) continue;
        if (count <= 0) return false;
        bytes += count;
        size -= (size_t)count;
    }
    return true;
}

/* Written beside, synced, renamed, and the folder synced. */
static int folder_write(const struct store *store, const char *name, const void *bytes, size_t size) {
    char beside[NAME_MAX + 8];
    snprintf(beside, sizeof beside, "%s.new", name);
    int file = openat(store->folder, beside, O_WRONLY | O_CREAT | O_TRUNC | O_CLOEXEC, MODE);
    bool stored = file >= 0 && write_all(file, bytes, size) && fsync(file) == 0;
    if (file >= 0 && close(file) != 0) stored = false;
    stored = stored && renameat(store->folder, beside, store->folder, name) == 0 && fsync(store->folder) == 0;
    if (stored) return STATUS_DONE;
    report_fault("%s/%s can't be written", store->path, name);
    return STATUS_IO;
}

static bool read_all(int file, uint8_t *bytes, size_t size) {
    while (size > 0) {
        ssize_t count = read(file, bytes, size);
        if (count < 0 && errno == EINTR) continue;
        if (count <= 0) return false;
        bytes += count;
        size -= (size_t)count;
    }
    return true;
}

static int folder_read(const struct store *store, const char *name, uint8_t **bytes, size_t *size) {
    struct stat about;
    int file = openat(store->folder, name, O_RDONLY | O_CLOEXEC);
    if (file < 0 && (errno == ENOENT || store->folder < 0)) return STATUS_DONE;
    bool is_there = file >= 0 && fstat(file, &about) == 0;
    uint8_t *room = is_there ? malloc((size_t)about.st_size + 1) : NULL;
    if (room && read_all(file, room, (size_t)about.st_size)) {
        room[about.st_size] = 0;
        *bytes = room;
        *size = (size_t)about.st_size;
        close(file);
        return STATUS_DONE;
    }
    report_fault("%s/%s can't be read", store->path, name);
    free(room);
    if (file >= 0) close(file);
    return STATUS_IO;
}

static void folder_close(struct store *store) {
    if (store->lock >= 0) close(store->lock);
    if (store->folder >= 0) close(store->folder);
}

const struct storage folder_storage = {folder_open, folder_claim, folder_read, folder_write, NULL, folder_close};
