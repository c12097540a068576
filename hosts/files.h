/* Files in one value: each behind its name and length (docs/FORMATS.md, "Stores elsewhere"). */
#ifndef FILES_H
#define FILES_H

#include "bytes.h"

/* The bytes of a file and how many they are; null where there is none. */
const uint8_t *files_find(const struct bytes *files, const char *name, size_t *size);

/* The same files with other bytes under a name; false without memory. */
bool files_with(const struct bytes *files, const char *name, const void *bytes, size_t size, struct bytes *anew);

#endif
