/* The plain C forecast that the benchmark holds against the library's. */
#ifndef FORECAST_C_H
#define FORECAST_C_H

#include <stddef.h>
#include <stdint.h>

/* The same number and the same figures as gi_forecast. */
uint32_t forecast_c(const uint32_t *card, size_t card_len, const uint32_t *batch, size_t batch_len, uint32_t *blocks,
                    uint32_t *limit, uint32_t *finishes, uint32_t *writes);

#endif
