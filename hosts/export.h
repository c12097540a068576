/* The state of a suspended process as a file, with which a process of another cluster may begin (docs/CLUSTER.md, "Begin a new
   cluster"). */
#ifndef EXPORT_H
#define EXPORT_H

#include "cluster.h"
#include "options.h"

/* Writes the file, which has to be new, and says on standard output what is under way; the status of the program. */
int export_state(const struct options *options, const struct cluster *cluster);

#endif
