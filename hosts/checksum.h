/* CRC-32C (docs/FORMATS.md, "Packet"). */
#ifndef CHECKSUM_H
#define CHECKSUM_H

#include <stddef.h>
#include <stdint.h>

/* Goes on from the checksum of the bytes before; 0 if there are none. */
uint32_t checksum(uint32_t before, const void *bytes, size_t size);

#endif
