/* The implementations that are timed against each other: those of one call all have the same arguments. */
#ifndef KERNELS_H
#define KERNELS_H
#include <stddef.h>
#include <stdint.h>

struct road { uint32_t divisor, free, wave, jam, critical; };

typedef void forecaster(const struct road *, const uint32_t *cells, size_t n, const uint32_t *up, const uint32_t *down,
                        uint32_t horizon, const uint32_t *caps, uint32_t *out, uint64_t *entered, uint64_t *left);
typedef void settler(const struct road *, const uint32_t *cells, size_t n, uint32_t up, uint32_t down, uint32_t horizon,
                     const uint32_t *caps, uint32_t *out, uint32_t *settled, uint32_t *steps);
typedef void reader(const struct road *, const uint32_t *cells, size_t n, uint32_t up, uint32_t down, uint8_t *letters,
                    uint8_t *modes, uint32_t *counts, uint32_t *queued);
typedef void predictor(const struct road *, const uint32_t *cells, size_t n, uint32_t up, uint32_t down,
                       const uint8_t *word, int64_t *out);
typedef void ranker(const struct road *, const uint32_t *cells, size_t n, uint32_t up, uint32_t down, uint32_t *numbers,
                    int32_t *changes);

forecaster plain_forecast, tuned_one_pass, tuned_two_passes, tuned_limits, tuned_floats, proved_forecast, before_forecast;
settler plain_settle, tuned_settle, proved_settle, before_settle;
reader plain_read, tuned_read, proved_read, before_read;
predictor plain_rows, tuned_rows, proved_rows, before_rows;
ranker plain_nearest, tuned_nearest, proved_nearest, before_nearest;
#endif
