/* A process of a cluster as a program of its own, or the cluster's gateway (docs/CLUSTER.md). The library does the thinking;
   this carries it. Nothing here is proved. */
#include "cluster.h"
#include "export.h"
#include "gateway_host.h"
#include "inspect.h"
#include "node_host.h"
#include "options.h"
#include "report.h"
#include "tls.h"

#include <sys/stat.h>

int main(int argc, char **argv) {
    static struct cluster cluster;
    struct options options;
    int status = options_read(argc, argv, &options);
    if (status == STATUS_DONE && options.inspected && !options.cluster) return inspect(options.inspected, NULL, options.me);
    if (status == STATUS_DONE) status = cluster_read(options.cluster, &cluster);
    if (status != STATUS_DONE) return status;
    if (options.inspected) return inspect(options.inspected, cluster.name, options.me);
    if (options.me > cluster.count) {
        report("%s has %d processes, and none of the number %d", options.cluster, cluster.count, options.me);
        return STATUS_CLUSTER;
    }
    if (!options.tls && cluster_has(&cluster, CARRIER_TLS)) {
        report("--tls is needed: %s has an address of tls", options.cluster);
        return STATUS_COMMAND;
    }
    report_as(cluster.processes[options.me].name);
    if (options.exported) return export_state(&options, &cluster);
    umask(S_IRWXG | S_IRWXO); /* files and sockets are this user's alone */
    signals_take(options.tls != NULL);
    if (options.tls) status = tls_open(options.tls, &cluster, options.me);
    if (status != STATUS_DONE && !options.looks) return status;
    status_first(&status, options.me == 0 ? gateway_run(&options, &cluster) : node_run(&options, &cluster));
    return status;
}
