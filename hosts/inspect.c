#include "inspect.h"

#include "gateway_store.h"
#include "limits.h"
#include "report.h"
#include "slots.h"
#include "store.h"
#include "stored.h"
#include "suspension.h"

#include <inttypes.h>
#include <sblog.h>
#include <stdio.h>
#include <stdlib.h>
#include <string.h>

/* Places in the kept bytes of a process (docs/FORMATS.md, "Kept bytes"). */
enum { STATE_SIZE = 6, MESSAGES = 8, KEPT_HEAD = 16, WORD = 8, LENGTH = 2 };

static int inspect_process(const struct store *store) {
    struct slots slots;
    uint8_t *kept;
    size_t size;
    uint64_t incarnation, inexact;
    int status = store_read_incarnation(store, &incarnation);
    if (status == STATUS_DONE) status = store_read_inexact(store, &inexact);
    if (status == STATUS_DONE) status = slots_open(&slots, store, &kept, &size);
    if (status != STATUS_DONE) return status;
    printf("incarnation %" PRIu64 "\n", incarnation);
    if (!kept) puts("no checkpoint");
    else if (size < KEPT_HEAD) printf("checkpoint %" PRIu64 ": %zu bytes\n", slots.number - 1, size);
    else printf("checkpoint %" PRIu64 ": %zu bytes, of them %" PRIu64 " the state, after %" PRIu64 " messages\n", slots.number - 1, size,
                number_at(kept + STATE_SIZE, LENGTH), number_at(kept + MESSAGES, WORD));
    free(kept);
    if (inexact == 0) puts("exact yes: no life has stored that it wasn't");
    else printf("exact no: incarnation %" PRIu64 " was the first that wasn't\n", inexact);
    status = store_read(store, SUSPENDED, &kept, &size);
    if (status == STATUS_DONE && size > 0) puts("suspended: the next start goes on in this incarnation");
    free(kept);
    return status;
}

/* The name of a process, after its number in the line of all. */
static void print_name(const char *identity, int process) {
    const char *names = strstr(identity, "\nprocesses "), *name = names ? names + strlen("\nprocesses ") : "";
    for (int p = 1; p < process; p++) name += strcspn(name, " \n") + (name[strcspn(name, " \n")] == ' ');
    printf("process %d %.*s: ", process, (int)strcspn(name, " \n"), name);
}

static struct numbers read_before(const char *identity) {
    struct numbers before = {0};
    for (const char *end; (end = strchr(identity, '\n')); identity = end + 1) numbers_read(identity, &before);
    return before;
}

static void print_processes(const uint8_t *whole, const char *identity) {
    struct stored all[PROCESS_LIMIT + 1];
    const struct numbers before = read_before(identity);
    int count = stored_read(whole, all);
    for (int p = 1; p <= count; p++) {
        print_name(identity, p);
        printf("%" PRIu64 " inputs logged, %" PRIu64 " of them kept, %" PRIu64 " not taken; %" PRIu64 " outputs shown; incarnation %" PRIu64
               "\n", numbers_input(&before, p, all[p].logged), all[p].kept, all[p].untaken, numbers_output(&before, p, all[p].shown),
               all[p].incarnation);
    }
}

static int print_follower(const struct store *store) {
    char *name;
    int status = store_read_follower(store, &name);
    if (status == STATUS_DONE && name) printf("followed by %s\n", name);
    free(name);
    return status;
}

static int inspect_gateway(const struct store *folder, const char *identity) {
    static struct outputs waiting;
    struct gateway_store store;
    struct bytes whole = {0}, changes = {0};
    sblog_gateway gateway = {0};
    uint8_t *bytes = NULL;
    int status = gateway_store_open(&store, folder, &whole, &changes, &waiting);
    if (status != STATUS_DONE) return status;
    if (!whole.at) {
        puts("no store");
        return STATUS_DONE;
    }
    printf("generation %" PRIu64 ": a store of %zu bytes, and %zu bytes of changes since\n", store.generation, whole.size, changes.size);
    printf("%zu outputs handed out and not taken\n", waiting.count);
    status = stored_whole(folder, &whole, &changes, &gateway, &bytes);
    if (status == STATUS_DONE) print_processes(bytes, identity);
    if (status == STATUS_DONE) status = print_follower(folder);
    sblog_gateway_close(&gateway);
    free(bytes);
    bytes_end(&whole);
    bytes_end(&changes);
    return status;
}

int inspect(const char *where, const char *cluster, int me) {
    char *identity;
    struct store store;
    int status = store_find(&store, where, cluster, me, true);
    if (status == STATUS_DONE && !store_is_remote(&store) && store.folder < 0) {
        report_fault("%s", where);
        return STATUS_IO;
    }
    if (status == STATUS_DONE && store_is_remote(&store)) status = store.storage->claim(&store);
    if (status == STATUS_DONE) status = store_read_identity(&store, &identity);
    if (status != STATUS_DONE) return status;
    if (!identity) {
        report("%s: the file identity is missing", store.path);
        return STATUS_STORE;
    }
    fputs(identity, stdout);
    status = strstr(identity, "\nprocess 0 ") ? inspect_gateway(&store, identity) : inspect_process(&store);
    free(identity);
    return status;
}
