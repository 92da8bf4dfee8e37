/* The forecast and the settling run of an earlier state that knew no caps, as kernels: whatever caps they are given, all
 * faces are open. `run` compiles this file where it is given such a state, and renames that state's kernels to these. */
#include "kernels.h"

void uncapped_forecast(const struct road *, const uint32_t *cells, size_t n, const uint32_t *up, const uint32_t *down,
                       uint32_t horizon, uint32_t *out, uint64_t *entered, uint64_t *left);
void uncapped_settle(const struct road *, const uint32_t *cells, size_t n, uint32_t up, uint32_t down, uint32_t horizon,
                     uint32_t *out, uint32_t *settled, uint32_t *steps);

void before_forecast(const struct road *r, const uint32_t *cells, size_t n, const uint32_t *up, const uint32_t *down,
                     uint32_t horizon, const uint32_t *caps, uint32_t *out, uint64_t *entered, uint64_t *left)
{
    (void)caps;
    uncapped_forecast(r, cells, n, up, down, horizon, out, entered, left);
}

void before_settle(const struct road *r, const uint32_t *cells, size_t n, uint32_t up, uint32_t down, uint32_t horizon,
                   const uint32_t *caps, uint32_t *out, uint32_t *settled, uint32_t *steps)
{
    (void)caps;
    uncapped_settle(r, cells, n, up, down, horizon, out, settled, steps);
}
