/* Requests and replies as frames (docs/FORMATS.md, "Frames of a program"). */
#ifndef CLIENT_FRAMES_H
#define CLIENT_FRAMES_H

#include "request.h"

#include <stdbool.h>

/* Bytes that a connection of frames begins with; of the longest frame. */
enum { FRAMES_MAGIC = 4, LONGEST_FRAME = 270 };

/* Whether these bytes begin as those of a connection of frames, of whichever version. */
bool frames_begin(const uint8_t *at, size_t left);

/* Whether that many bytes are of this version. */
bool frames_are_known(const uint8_t at[FRAMES_MAGIC]);

/* How many of these bytes the first frame has with its length; those of the length if that is refused; 0 while it isn't whole. */
size_t framed_size(const uint8_t *at, size_t left);

/* Reads a frame of this size. */
void framed_read(const uint8_t *at, size_t size, const struct cluster *cluster, struct request *request);

/* Writes a reply; how many bytes it has. */
size_t framed_write(const struct reply *reply, uint8_t out[LONGEST_FRAME]);

#endif
