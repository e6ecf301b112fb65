/* A checksum of bytes. No two texts of the same length that differ in one byte have the
 * same; others by a chance of one in 2 to the power of 64. */
#ifndef CHECKSUM_H
#define CHECKSUM_H

#include <stddef.h>
#include <stdint.h>

#define CHECKSUM_START UINT64_C(0xcbf29ce484222325) /* of no bytes */

/* The checksum of some bytes and of these behind them. */
static inline uint64_t checksum_add(uint64_t checksum, const unsigned char *bytes, size_t length) {
    for (size_t i = 0; i < length; i++)
        checksum = (checksum ^ bytes[i]) * UINT64_C(0x100000001b3);
    return checksum;
}

#endif
