/* The cluster file: who there is, with which image, and where. */
#ifndef CLUSTER_H
#define CLUSTER_H

#include "address.h"

#include <sblog.h>

enum { PROCESS_LIMIT = SBLOG_PROCESS_LIMIT, NAME_LIMIT = 32 };

struct process {
    char name[NAME_LIMIT + 1];
    char *image; /* none of the gateway */
    char *state; /* the file that a process with a new store begins with, or null: it begins with zeros */
    int line;    /* of the file */
    struct address address;
};

/* Process 0 is the gateway. */
struct cluster {
    char name[NAME_LIMIT + 1];
    int count;
    struct process processes[PROCESS_LIMIT + 1];
};

/* Reads a file; a status, and each line that isn't taken is reported. */
int cluster_read(const char *path, struct cluster *cluster);

/* Whether anybody has an address by this carrier. */
bool cluster_has(const struct cluster *cluster, enum carrier carrier);

/* The number of a process, 0 if there is none of this name. */
int cluster_find(const struct cluster *cluster, const char *name);

#endif
