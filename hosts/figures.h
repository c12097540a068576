/* How a program stands, by HTTP on a socket: its figures for Prometheus, whether it lives, and whether it is ready. */
#ifndef FIGURES_H
#define FIGURES_H

#include "address.h"
#include "histogram.h"
#include "log.h"
#include "watch.h"

#include <stdbool.h>
#include <stddef.h>
#include <stdint.h>

/* What is told of a program. */
struct view {
    const char *process, *stage;
    bool is_ready;
    const struct figure *figures;
    size_t count;
    const struct histogram *messages, *syncs;
};

enum { READER_LIMIT = 8, REQUEST_LIMIT = 2048 };

/* A program that has connected: it is answered once when it has asked. */
struct reader {
    int file; /* -1: none */
    uint64_t since;
    size_t have;
    char request[REQUEST_LIMIT];
};

struct metrics {
    const struct address *address;
    int file; /* -1: none is asked for */
    bool has_lines; /* a line each second */
    uint64_t next_line;
    struct reader readers[READER_LIMIT];
};

/* Takes the address; a status, and why is reported. */
int metrics_open(struct metrics *metrics, const struct address *address);
void metrics_watch(const struct metrics *metrics, struct watch *watch);
void metrics_serve(struct metrics *metrics, const struct view *view);

/* The same; and a line of the figures, if one is due, or a signal asked for it. */
void metrics_show(struct metrics *metrics, const struct view *view);

void metrics_close(struct metrics *metrics);

#endif
