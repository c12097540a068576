/* What a store holds, in words. */
#ifndef INSPECT_H
#define INSPECT_H

/* Prints the store of a process, whose cluster may be null of a folder, on standard output, and changes nothing, also beside a program
   that has the store; a status. */
int inspect(const char *where, const char *cluster, int me);

#endif
