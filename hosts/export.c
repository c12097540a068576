#include "export.h"

#include "node_state.h"
#include "report.h"

#include <errno.h>
#include <fcntl.h>
#include <inttypes.h>
#include <libgen.h>
#include <limits.h>
#include <sblog.h>
#include <stdio.h>
#include <sys/stat.h>

/* Whole or not at all, and durable, as a file of a store. */
static int write_new(const char *path, const uint8_t *bytes, size_t size) {
    char folder[PATH_MAX], name[PATH_MAX];
    struct stat about;
    if (lstat(path, &about) == 0) errno = EEXIST;
    if (errno != ENOENT) {
        report_fault("%s", path);
        return STATUS_IO;
    }
    snprintf(folder, sizeof folder, "%s", path);
    snprintf(name, sizeof name, "%s", path);
    struct store place = {.storage = &folder_storage, .path = dirname(folder), .lock = -1};
    place.folder = open(place.path, O_RDONLY | O_DIRECTORY | O_CLOEXEC);
    if (place.folder < 0) {
        report_fault("%s", place.path);
        return STATUS_IO;
    }
    int status = store_write(&place, basename(name), bytes, size);
    store_close(&place);
    return status;
}

/* The state has all that came to a suspended process, so what it sent alone may be under way. What has an RSN is in its receiver's
   state, once that is suspended, too. */
static int tell(const struct node_host *host, size_t size) {
    const sblog_standing *now = &host->standing;
    printf("state of %zu bytes, after %" PRIu64 " messages, exact %s\n", size, now->length, now->exact ? "yes" : "no");
    printf("under way %" PRIu64 ": %s\n", host->untaken,
           host->untaken == 0 ? "its receivers have taken all that it sent"
                              : "messages and outputs that no receiver has taken, as far as it knows");
    return host->untaken == 0 ? STATUS_DONE : STATUS_UNDER_WAY;
}

int export_state(const struct options *options, const struct cluster *cluster) {
    static struct node_host host;
    uint8_t state[SBLOG_STATE_LIMIT];
    size_t size;
    host.options = options;
    host.cluster = cluster;
    int status = node_reopen(&host);
    if (status != STATUS_DONE) return status;
    uint32_t code = sblog_node_state(&host.node, state, sizeof state, &size);
    if (code != SBLOG_NODE_DONE) return code_refused("state", code, 0);
    status = write_new(options->exported, state, size);
    store_close(&host.store);
    return status == STATUS_DONE ? tell(&host, size) : status;
}
