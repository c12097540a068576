/* The host of the gateway: lines of programs become inputs, and outputs become lines; what it has to keep is durable before
   anything is sent or answered. */
#ifndef GATEWAY_HOST_H
#define GATEWAY_HOST_H

#include "cluster.h"
#include "options.h"

/* Runs until it is stopped; the status of the program. */
int gateway_run(const struct options *options, const struct cluster *cluster);

#endif
