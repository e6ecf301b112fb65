/* The plain C step that the benchmarks hold against the library's. */
#ifndef STEP_C_H
#define STEP_C_H

#include <stddef.h>
#include <stdint.h>

/* The same number, answer and write as gi_step. */
uint32_t step_c(uint32_t *card, size_t card_len, const uint32_t *batch, size_t batch_len, uint32_t *write,
                uint32_t *freed, uint32_t *finished);

#endif
