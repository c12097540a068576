/* A text that is put together piece by piece; what doesn't fit is cut off. */
#ifndef TEXT_H
#define TEXT_H

#include <stddef.h>

enum { TEXT_LIMIT = 32768 };

struct text {
    size_t size;
    char bytes[TEXT_LIMIT];
};

void text_add(struct text *text, const char *format, ...) __attribute__((format(printf, 2, 3)));

#endif
