#include "gateway_state.h"

#include "tls.h"

#include <string.h>

enum { FIGURES = 13 };

static size_t figures(const struct gateway_host *host, struct figure out[FIGURES]) {
    uint64_t logged = 0, waiting = 0, shown = 0, clients = 0;
    for (int p = 1; p <= host->cluster->count; p++) {
        waiting += counts_waiting(&host->counts, p);
        if (host->counts.logged[p] > 0) logged += numbers_input(&host->ids.before, p, host->counts.logged[p]);
        if (host->counts.shown[p] > 0) shown += numbers_output(&host->ids.before, p, host->counts.shown[p]);
    }
    for (int i = 0; i < CLIENTS_LIMIT; i++) clients += host->clients.all[i].out >= 0;
    const struct figure all[FIGURES] = {
        {"logged", logged, NULL, "SSN of the last inputs, of those processes that had one since it began", false},
        {"waiting", waiting, NULL, "inputs that have no number yet", false},
        {"shown", shown, NULL, "SSN of the last outputs, of those processes that had one since it began", false},
        {"printed", host->outputs, NULL, "outputs that were printed since it began", true},
        {"untaken", host->waiting.count, NULL, "outputs that were handed out, and that nobody has taken", false},
        {"programs", clients, NULL, "programs that hand in inputs or take outputs", false},
        {"behind", host->store.behind, NULL, "bytes of records after the store", false},
        {"refused", host->transport.refused, NULL, "times that bytes came that are no packet", true},
        {"faulty", host->faulty, NULL, "times that a program sent what is no frame", true},
        {"broken", host->transport.broken, NULL, "times that something came that is no bundle", true},
        {"foreign", host->transport.foreign, NULL, "times that a bundle of another cluster came", true},
        {"strangers", tls_refused(), NULL, "connections by tls that were refused", true},
        {"lost", host->transport.lost, NULL, "packets that found no way", true},
    };
    memcpy(out, all, sizeof all);
    return FIGURES;
}

void gateway_show(struct gateway_host *host) {
    struct figure all[FIGURES];
    size_t count = figures(host, all);
    const struct histogram syncs = syncer_took(&host->store.syncer);
    metrics_show(&host->metrics, &(struct view){.process = "gateway", .stage = "up", .is_ready = true, .figures = all, .count = count,
                                                .messages = &host->pace.took, .syncs = &syncs});
}
