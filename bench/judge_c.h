/* The plain C judge that the benchmark holds against the library's. */
#ifndef JUDGE_C_H
#define JUDGE_C_H

#include <stddef.h>
#include <stdint.h>

/* The same checks and the same number as gi_judge. */
uint32_t judge_c(const uint32_t *card, size_t card_len);

#endif
