/* The host of a process: carries bytes between its node and the world, and keeps what it has to keep. */
#ifndef NODE_HOST_H
#define NODE_HOST_H

#include "cluster.h"
#include "options.h"

/* Runs until it is stopped; the status of the program. */
int node_run(const struct options *options, const struct cluster *cluster);

#endif
