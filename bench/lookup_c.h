/* The plain C lookup that the benchmark holds against the library's. */
#ifndef LOOKUP_C_H
#define LOOKUP_C_H

#include <stdbool.h>
#include <stddef.h>
#include <stdint.h>

/* The reply, counts and answer words of gi_lookup on a card that is known to be sound. Where
 * count_first is false the positions are not counted before they are moved, and the answer
 * words must be known to suffice: 10 is never given. */
uint32_t lookup_c(const uint32_t *card, uint32_t term, uint32_t from, uint32_t to, uint32_t *answer, size_t answer_len,
                  bool count_first, uint32_t *found, uint32_t *blocks);

#endif
