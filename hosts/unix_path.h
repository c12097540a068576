/* Sockets at paths of this machine. */
#ifndef UNIX_PATH_H
#define UNIX_PATH_H

#include <stdbool.h>
#include <sys/un.h>

struct sockaddr_un unix_path(const char *path);

/* A socket of this type at a path: over what a killed life left, and over nothing else. -1, and why is reported. */
int unix_path_take(int type, const char *path);

/* Whether one could be taken: nothing changes, and why not is reported. */
bool unix_path_look(int type, const char *path);

#endif
