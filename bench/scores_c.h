/* What gi_scores does, in plain C, for the benchmark alone. */
#ifndef SCORES_C_H
#define SCORES_C_H

#include <stddef.h>
#include <stdint.h>

/* Takes and gives what gi_scores does. */
uint32_t scores_c(const uint8_t *bytes, size_t bytes_len, uint32_t *batch, size_t batch_len, size_t *words,
                  size_t *line);

#endif
