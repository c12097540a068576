#include "figures.h"

#include "options.h"
#include "report.h"
#include "text.h"

#include <errno.h>
#include <inttypes.h>
#include <stdio.h>
#include <string.h>
#include <sys/socket.h>
#include <unistd.h>

enum { PATIENCE = 5 * SECOND }; /* that a reader has for its request */

/* What only grows is there as a counter, too, by the name that Prometheus has for one. */
static void add_figure(struct text *text, const char *process, const struct figure *figure) {
    for (int total = 0; total <= figure->is_total; total++) {
        const char *end = total ? "_total" : "";
        text_add(text, "# HELP sblog_%s%s %s\n# TYPE sblog_%s%s %s\nsblog_%s%s{process=\"%s\"} %" PRIu64 "\n", figure->name, end, figure->help,
            figure->name, end, total ? "counter" : "gauge", figure->name, end, process, figure->value);
    }
}

static void add_histogram(struct text *text, const char *process, const char *name, const char *help, const struct histogram *all) {
    uint64_t count = 0;
    if (!all) return;
    text_add(text, "# HELP sblog_%s_seconds %s\n# TYPE sblog_%s_seconds histogram\n", name, help, name);
    for (int i = 0; i < BUCKETS; i++) {
        count += all->counts[i];
        text_add(text, "sblog_%s_seconds_bucket{process=\"%s\",le=\"%g\"} %" PRIu64 "\n", name, process, (double)HISTOGRAM_BOUNDS[i] / SECOND, count);
    }
    count += all->counts[BUCKETS];
    text_add(text, "sblog_%s_seconds_bucket{process=\"%s\",le=\"+Inf\"} %" PRIu64 "\n", name, process, count);
    text_add(text, "sblog_%s_seconds_sum{process=\"%s\"} %" PRIu64 ".%06" PRIu64 "\n", name, process, all->sum / SECOND, all->sum % SECOND);
    text_add(text, "sblog_%s_seconds_count{process=\"%s\"} %" PRIu64 "\n", name, process, count);
}

int metrics_open(struct metrics *metrics, const struct address *address) {
    metrics->address = address;
    for (int i = 0; i < READER_LIMIT; i++) metrics->readers[i].file = -1;
    return address_listen(address, &metrics->file);
}

void metrics_watch(const struct metrics *metrics, struct watch *watch) {
    watch_file(watch, metrics->file, POLLIN);
    if (metrics->has_lines) watch_time(watch, metrics->next_line);
    for (int i = 0; i < READER_LIMIT; i++) watch_file(watch, metrics->readers[i].file, POLLIN);
}

static void add_head(struct text *text, const char *status) {
    text_add(text, "HTTP/1.0 %s\r\nContent-Type: text/plain; version=0.0.4\r\n\r\n", status);
}

static void answer(const char *request, const struct view *view, struct text *text) {
    char path[64] = "";
    bool is_get = sscanf(request, "GET %63[^ ?\r\n]", path) == 1;
    if (is_get && !strcmp(path, "/metrics")) {
        add_head(text, "200 OK");
        for (size_t i = 0; i < view->count; i++) add_figure(text, view->process, &view->figures[i]);
        add_histogram(text, view->process, "message", "from a message's first sending until its number is known, of one at a time for each peer",
                      view->messages);
        add_histogram(text, view->process, "sync", "what the disk takes to make a write durable", view->syncs);
    } else if (is_get && (!strcmp(path, "/healthz") || !strcmp(path, "/readyz"))) {
        add_head(text, view->is_ready || path[1] == 'h' ? "200 OK" : "503 Service Unavailable");
        text_add(text, "%s\n", view->stage);
    } else {
        add_head(text, is_get ? "404 Not Found" : "400 Bad Request");
        text_add(text, "GET /metrics, /healthz or /readyz\n");
    }
}

static void reader_leaves(struct reader *reader) {
    close(reader->file);
    reader->file = -1;
}

/* A request is over with an empty line. One that is too long or too slow goes without an answer. */
static void serve(struct reader *reader, const struct view *view) {
    static struct text text;
    ssize_t size = recv(reader->file, reader->request + reader->have, REQUEST_LIMIT - 1 - reader->have, 0);
    if (size > 0) reader->have += (size_t)size;
    reader->request[reader->have] = 0;
    if (strstr(reader->request, "\r\n\r\n") || strstr(reader->request, "\n\n")) {
        text.size = 0;
        answer(reader->request, view, &text);
        send(reader->file, text.bytes, text.size, MSG_NOSIGNAL | MSG_DONTWAIT);
        reader_leaves(reader);
    } else if (size == 0 || (size < 0 && errno != EAGAIN) || clock_now() - reader->since > PATIENCE) {
        reader_leaves(reader);
    }
}

void metrics_serve(struct metrics *metrics, const struct view *view) {
    for (int i = 0; i < READER_LIMIT && metrics->file >= 0; i++) {
        struct reader *reader = &metrics->readers[i];
        if (reader->file < 0) {
            reader->file = accept4(metrics->file, NULL, NULL, SOCK_NONBLOCK | SOCK_CLOEXEC);
            reader->since = clock_now();
            reader->have = 0;
        }
        if (reader->file >= 0) serve(reader, view);
    }
}

void metrics_show(struct metrics *metrics, const struct view *view) {
    uint64_t now = clock_now();
    bool is_due = metrics->has_lines && now >= metrics->next_line;
    metrics_serve(metrics, view);
    if (!is_due && !signal_status) return;
    signal_status = 0;
    if (is_due) metrics->next_line = now + SECOND;
    report_figures("status", NULL, view->figures, view->count);
}

void metrics_close(struct metrics *metrics) { address_leave(metrics->address, metrics->file); }
