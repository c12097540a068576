/* Bytes that are kept under a name, in the folder where the program runs: each whole, or as it was, whenever the program or
   the machine ends. kept_file.c keeps them in files, kept_sqlite.c in a database. */
#ifndef KEPT_H
#define KEPT_H

#include <stddef.h>

/* Returns once the bytes are durable, in place of those before. Where they can't be kept, the program ends. */
void kept_store(const char *name, const void *bytes, size_t size);

/* How many bytes there are, which are written; 0 where nothing is kept. More than `room` end the program. */
size_t kept_load(const char *name, void *bytes, size_t room);

#endif
