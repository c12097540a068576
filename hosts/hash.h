/* SHA-256 (FIPS 180-4) of an image, so that a store notices another one. */
#ifndef HASH_H
#define HASH_H

#include <stddef.h>
#include <stdint.h>

enum { HASH_TEXT = 65 };

/* Writes the hash in hexadecimal digits, ended by a zero. */
void hash_text(const uint8_t *bytes, size_t size, char text[HASH_TEXT]);

#endif
