/* Requests and replies as lines of text (docs/CLUSTER.md). */
#ifndef CLIENT_LINES_H
#define CLIENT_LINES_H

#include "request.h"

/* Bytes of the longest answer, which bears a name, two numbers, an id and a sentence; and of the longest output. */
enum { LONGEST_ANSWER = 256, LONGEST_OUTPUT = 640 };

/* How many of these bytes the first line has with its end, or is too long with; 0 while it isn't whole. */
size_t line_size(const char *text, size_t left);

/* Reads a line of this size, and changes its bytes. */
void line_read(char *text, size_t size, const struct cluster *cluster, struct request *request);

/* Writes a reply, with its end; how many bytes it has. */
size_t line_write(const struct reply *reply, const struct cluster *cluster, char out[LONGEST_OUTPUT]);

#endif
