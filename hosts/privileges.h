/* What a program may do once all is open: as another user, and by the system calls that it needs from then on alone. */
#ifndef PRIVILEGES_H
#define PRIVILEGES_H

#include "cluster.h"
#include "options.h"
#include "store.h"

/* Drops what it isn't to have; a status, and why is reported. */
int privileges_drop(const struct options *options, const struct cluster *cluster, const struct store *store);

/* Whether that could be done. */
int privileges_look(const struct options *options);

/* Of the system calls: false if it can't be; and whether this program was built with it. */
bool sandbox_enter(void);
bool sandbox_is_there(void);

#endif
