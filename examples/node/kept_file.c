/* Kept bytes in files: each is written beside the old one, synced, and takes its name. */
#include <fcntl.h>
#include <stdio.h>
#include <stdlib.h>
#include <sys/stat.h>
#include <unistd.h>

#include "kept.h"

static void check(int holds, const char *why) {
    if (holds) return;
    perror(why);
    exit(1);
}

void kept_store(const char *name, const void *bytes, size_t size) {
    char beside[300];
    snprintf(beside, sizeof beside, "%s.new", name);
    int file = open(beside, O_WRONLY | O_CREAT | O_TRUNC, 0600);
    check(file >= 0 && write(file, bytes, size) == (ssize_t)size && fsync(file) == 0 && close(file) == 0, beside);
    check(rename(beside, name) == 0, name);
    int directory = open(".", O_RDONLY);
    check(directory >= 0 && fsync(directory) == 0 && close(directory) == 0, "directory");
}

size_t kept_load(const char *name, void *bytes, size_t room) {
    int file = open(name, O_RDONLY);
    if (file < 0) return 0;
    struct stat known;
    check(fstat(file, &known) == 0 && known.st_size >= 0 && (size_t)known.st_size <= room, name);
    check(read(file, bytes, (size_t)known.st_size) == known.st_size && close(file) == 0, name);
    return (size_t)known.st_size;
}
