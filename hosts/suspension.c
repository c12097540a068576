#include "suspension.h"

#include "bytes.h"
#include "limits.h"
#include "report.h"

#include <inttypes.h>
#include <string.h>

/* Places in the file: the id of the store, the bytes of the node, and in these the length of its kept bytes, and these. */
enum { NODE = ID_BYTES, LENGTH = NODE + 4, KEPT = LENGTH + 8, PROCESSES = KEPT + 5, WORD = 8, FLAG = 1 };

static const uint8_t *id_of(const struct node_host *host) { return host->ids.stores[host->options->me].bytes; }

int suspension_write(struct node_host *host) {
    struct bytes file = {0};
    size_t size;
    uint32_t code = node_bytes(host, sblog_node_suspend, &size);
    if (code != SBLOG_NODE_DONE) {
        report_event(LEVEL_WARNING, "suspended", "it isn't suspended: %s; it will come back as after a kill", code_words(code));
        return STATUS_DONE;
    }
    bool has_memory = bytes_add(&file, id_of(host), ID_BYTES) && bytes_add(&file, host->bytes, size);
    int status = has_memory ? store_write(&host->store, SUSPENDED, file.at, file.size) : store_lacks_memory(&host->store);
    bytes_end(&file);
    if (status == STATUS_DONE)
        report_event(LEVEL_INFO, "suspended", "suspended in incarnation %" PRIu64 ": the next start goes on", host->standing.incarnation);
    return status;
}

/* Why these can't be bytes of the store's node after its last checkpoint; null if they can. */
static const char *fault_of(const struct node_host *host, const struct bytes *file, const uint8_t *kept, size_t size) {
    if (file->size < KEPT) return "it isn't whole";
    if (memcmp(file->at, id_of(host), ID_BYTES) != 0) return "it is of another store";
    bool is_whole = number_at(file->at + LENGTH, WORD) <= file->size - KEPT;
    if (is_whole && number_at(file->at + LENGTH, WORD) == size && !memcmp(file->at + KEPT, kept, size)) return NULL;
    return is_whole ? "it is of another checkpoint" : "it isn't whole";
}

/* How many messages of its logs have no RSN, in bytes that the library took. There is a log for each process, and for the gateway. */
static uint64_t untaken_in(const uint8_t *file) {
    uint64_t untaken = 0;
    int logs = file[PROCESSES] + 1;
    const uint8_t *at = file + KEPT + number_at(file + LENGTH, WORD) + WORD + FLAG + logs * (WORD + FLAG);
    for (; logs > 0; logs--) {
        uint64_t count = number_at(at, WORD);
        for (at += WORD; count > 0; count--, at += WORD) untaken += number_at(at, WORD) == 0;
    }
    return untaken;
}

/* The same of a node that may be resumed from them, which goes on then. */
static const char *resume(struct node_host *host, const struct bytes *file, uint64_t incarnation) {
    uint32_t fault, code = sblog_node_resume(host->image, host->image_size, file->at + NODE, file->size - NODE, PAGE, TICK, NUMBERS,
                                             RECEIPTS, host->options->durable, &host->node, &fault);
    if (code != SBLOG_NODE_DONE) return code_words(code);
    sblog_node_standing(&host->node, &host->standing);
    if (host->standing.incarnation != incarnation) {
        sblog_node_close(&host->node);
        return "it is of another life";
    }
    host->untaken = untaken_in(file->at);
    host->was_exact = host->standing.exact; /* if it wasn't, that was told before */
    return NULL;
}

static void tell(const struct node_host *host, const char *fault) {
    const sblog_standing *now = &host->standing;
    if (fault)
        report_event(LEVEL_WARNING, "resumed", "%s/%s: %s: the node isn't resumed, and comes back as after a kill", host->store.path,
                     SUSPENDED, fault);
    else if (!host->store.is_looked_at)
        report_event(LEVEL_INFO, "resumed", "resumed in incarnation %" PRIu64 ", exact %s", now->incarnation, now->exact ? "yes" : "no");
}

int suspension_take(struct node_host *host, uint64_t incarnation, const uint8_t *kept, size_t size, bool *is_resumed) {
    struct bytes file = {0};
    *is_resumed = false;
    int status = store_read(&host->store, SUSPENDED, &file.at, &file.size);
    bool is_there = status == STATUS_DONE && file.size > 0;
    if (is_there) status = store_write(&host->store, SUSPENDED, "", 0); /* a life that is killed from here on comes back as from any kill */
    if (is_there && status == STATUS_DONE) {
        const char *fault = fault_of(host, &file, kept, size);
        if (!fault) fault = resume(host, &file, incarnation);
        *is_resumed = !fault;
        tell(host, fault);
    }
    bytes_end(&file);
    return status;
}
