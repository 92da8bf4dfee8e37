/* The proved calls as kernels: each accepted call's results, or an end. */
#include <stdio.h>
#include <stdlib.h>
#include "kernels.h"
#include "welgadou.h"

static void accepted(uint32_t number, uint32_t place)
{
    if (number != 0) {
        fprintf(stderr, "refused %u at %u\n", number, place);
        exit(1);
    }
}

void proved_forecast(const struct road *r, const uint32_t *x, size_t n, const uint32_t *ups, const uint32_t *downs,
                            uint32_t horizon, const uint32_t *caps, uint32_t *out, uint64_t *entered, uint64_t *left)
{
    uint64_t total_entered = 0, total_left = 0;
    uint32_t place;
    uint32_t number = welgadou_forecast(WELGADOU_ROAD(*r), x, n, ups, horizon, downs, horizon, horizon, caps, n + 1,
                                        out, n, entered, left, &total_entered, &total_left, &place);
    accepted(number, place);
}

void proved_settle(const struct road *r, const uint32_t *x, size_t n, uint32_t before, uint32_t after,
                          uint32_t horizon, const uint32_t *caps, uint32_t *out, uint32_t *settled, uint32_t *steps)
{
    uint32_t place;
    uint32_t number = welgadou_settle(WELGADOU_ROAD(*r), x, n, before, after, horizon, caps, n + 1, out, n, settled,
                                      steps, &place);
    accepted(number, place);
}

void proved_read(const struct road *r, const uint32_t *x, size_t n, uint32_t before, uint32_t after,
                        uint8_t *letters, uint8_t *modes, uint32_t *counts, uint32_t *queued)
{
    uint32_t place;
    uint32_t number = welgadou_read(WELGADOU_ROAD(*r), x, n, before, after, letters, n + 1, modes, n, counts, queued,
                                    &place);
    accepted(number, place);
}

void proved_rows(const struct road *r, const uint32_t *x, size_t n, uint32_t before, uint32_t after,
                        const uint8_t *letters, int64_t *out)
{
    uint32_t place;
    uint32_t number = welgadou_rows(WELGADOU_ROAD(*r), x, n, before, after, letters, n + 1, out, n, &place);
    accepted(number, place);
}

void proved_nearest(const struct road *r, const uint32_t *x, size_t n, uint32_t before, uint32_t after,
                    uint32_t *numbers, int32_t *changes)
{
    uint32_t place;
    uint32_t number = welgadou_nearest(WELGADOU_ROAD(*r), x, n, before, after, numbers, n, changes, n, &place);
    accepted(number, place);
}
