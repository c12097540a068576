#include "files.h"

#include <string.h>

enum { NAME = 12, ITEM = 16, HALF = 4 };

const uint8_t *files_find(const struct bytes *files, const char *name, size_t *size) {
    for (size_t at = 0; at + ITEM <= files->size; at += ITEM + *size) {
        *size = number_at(files->at + at + NAME, HALF);
        if (*size > files->size - at - ITEM) break; /* nobody wrote that */
        if (!strncmp((const char *)files->at + at, name, NAME)) return files->at + at + ITEM;
    }
    *size = 0;
    return NULL;
}

bool files_with(const struct bytes *files, const char *name, const void *bytes, size_t size, struct bytes *anew) {
    size_t old;
    const uint8_t *found = files_find(files, name, &old);
    size_t before = found ? (size_t)(found - ITEM - files->at) : files->size, behind = found ? before + ITEM + old : files->size;
    uint8_t item[ITEM] = {0};
    memcpy(item, name, strlen(name));
    number_put(item + NAME, size, HALF);
    return bytes_add(anew, files->at, before) && bytes_add(anew, files->at + behind, files->size - behind) &&
           bytes_add(anew, item, ITEM) && bytes_add(anew, bytes, size);
}
