#include "patience.h"

#include "report.h"
#include "watch.h"

#include <unistd.h>

/* Microseconds that a server may be silent, that pass between two tries, and after which a program stood still. */
enum { SILENT = 30 * SECOND, AGAIN = SECOND / 10, STILL = 10 * SECOND };

void patience_begin(struct patience *patience, const char *path) {
    uint64_t now = clock_now();
    *patience = (struct patience){.path = path, .since = now, .until = now + SILENT, .looked = now};
}

bool patience_lasts(struct patience *patience) {
    uint64_t now = clock_now(), passed = now - patience->looked;
    patience->looked = now;
    if (passed > STILL && !patience->has_stood) {
        patience->has_stood = true; /* once: a name of a host may take as long to be looked up, again and again */
        patience->since += passed;
        patience->until += passed;
    }
    bool is_told = !patience->has_told && now - patience->since >= SECOND;
    if (is_told) report_event(LEVEL_WARNING, "store", "%s: it doesn't answer: this program waits, 30 seconds at most", patience->path);
    patience->has_told = patience->has_told || is_told;
    return now < patience->until;
}

bool patience_waits(struct patience *patience) {
    if (!patience_lasts(patience)) return false;
    usleep(AGAIN);
    return true;
}

void patience_ends(const struct patience *patience) {
    double seconds = (double)(clock_now() - patience->since) / SECOND;
    if (patience->has_told) report_event(LEVEL_INFO, "store", "%s: it answers, after %.1f seconds", patience->path, seconds);
}
