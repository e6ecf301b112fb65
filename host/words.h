/* Words as they stand in files: 32 bits, little-endian. */
#ifndef WORDS_H
#define WORDS_H

#include <stdint.h>

enum { WORD_BYTES = 4 };

static inline uint32_t word_from(const unsigned char *bytes) {
    return bytes[0] | (uint32_t)bytes[1] << 8 | (uint32_t)bytes[2] << 16 | (uint32_t)bytes[3] << 24;
}

static inline void word_to(unsigned char *bytes, uint32_t word) {
    for (int i = 0; i < WORD_BYTES; i++)
        bytes[i] = (unsigned char)(word >> 8 * i);
}

#endif
