/* Times five of the proved calls against plain and tuned C on the same input, interleaved, best of many, and prints
 * ratios. What a proved call spends on judging its input is part of its time; the C kernels judge nothing. */
#include <stdio.h>
#include <stdlib.h>
#include <string.h>
#include <time.h>
#include "kernels.h"
#include "welgadou.h"

/* The proved calls of an earlier state of this project, where `run` was given one: one kernel more in each contest. BEFORE
 * is its name in the contests of the calls that take caps, which says whether it takes them. */
#ifdef BEFORE
#define EARLIER(kernel) kernel,
enum { ONE_MORE = 1 };
#else
#define EARLIER(kernel)
enum { ONE_MORE = 0 };
#endif

enum { CELLS = 256, STEPS = WELGADOU_HORIZON_CEILING, FAR_STEPS = 400, FAR_FLOW = 50 };
enum { ROUNDS = 60, KERNELS = 7, SIZES = 4 };

/* The input, and what each kernel made of it. */
static const struct road road = { 4095, 3276, 819, 1000000, 200000 };
static uint32_t cells[CELLS], up[STEPS], down[STEPS], open_caps[CELLS + 1], narrow_caps[CELLS + 1];
static uint8_t word[CELLS + 1];
static struct result {
    uint32_t cells[CELLS], settled, steps, counts[7], queued, numbers[CELLS];
    int32_t changes[CELLS];
    uint64_t entered, left;
    int64_t rows[CELLS];
    uint8_t letters[CELLS + 1], modes[CELLS];
} results[KERNELS];

/* For the ranking also the same at a thousandth of the jam, and densities that rise: their changes fall in size. */
static const struct road small_road = { 5, 4, 1, 1000, 200 };
static uint32_t small_cells[CELLS], rising[CELLS];

/* For settling also a state from which each test of stillness, a look, goes far: all faces move FAR_FLOW units but the one
 * before the last cell, whose cap is one less, and later the one before that. In FAR_STEPS steps the last cell does not
 * run short of units. */
static uint32_t far_cells[CELLS], far_up[FAR_STEPS], far_down[FAR_STEPS], far_caps[CELLS + 1];

/* The calls: run kernel k on the first n cells, with so many steps. */
static void forecast(int k, size_t n, uint32_t steps, const uint32_t *caps)
{
    static forecaster *const kernels[] = { plain_forecast, tuned_one_pass, tuned_two_passes, tuned_limits, tuned_floats,
                                           EARLIER(before_forecast) proved_forecast };
    struct result *to = &results[k];
    kernels[k](&road, cells, n, up, down, steps, caps, to->cells, &to->entered, &to->left);
}

static void run_forecast(int k, size_t n, uint32_t steps) { forecast(k, n, steps, open_caps); }
static void run_narrow_forecast(int k, size_t n, uint32_t steps) { forecast(k, n, steps, narrow_caps); }

static void settle(int k, size_t n, uint32_t steps, const uint32_t *caps)
{
    static settler *const kernels[] = { plain_settle, tuned_settle, EARLIER(before_settle) proved_settle };
    struct result *to = &results[k];
    /* A little more enters than leaves until the road is full, which takes longer than the horizon. */
    kernels[k](&road, cells, n, 100000, 601000, steps, caps, to->cells, &to->settled, &to->steps);
}

static void run_settle(int k, size_t n, uint32_t steps) { settle(k, n, steps, open_caps); }
static void run_narrow_settle(int k, size_t n, uint32_t steps) { settle(k, n, steps, narrow_caps); }

/* The forecast in the place of a settling run: it makes the same steps and looks at none. */
static void forecast_far(const struct road *r, const uint32_t *x, size_t n, uint32_t before, uint32_t after,
                         uint32_t horizon, const uint32_t *caps, uint32_t *out, uint32_t *settled, uint32_t *steps)
{
    uint64_t entered, left;
    (void)before;
    (void)after;
    proved_forecast(r, x, n, far_up, far_down, horizon, caps, out, &entered, &left);
    *settled = 0;
    *steps = horizon;
}

static void run_far_settle(int k, size_t n, uint32_t steps)
{
    static settler *const kernels[] = { plain_settle, tuned_settle, EARLIER(before_settle) forecast_far, proved_settle };
    struct result *to = &results[k];
    /* The last caps, so that the narrow face is before the last cell of any n. */
    kernels[k](&small_road, far_cells, n, far_up[0], far_down[0], steps, far_caps + CELLS - n, to->cells, &to->settled,
               &to->steps);
}

static void run_read(int k, size_t n, uint32_t steps)
{
    static reader *const kernels[] = { plain_read, tuned_read, EARLIER(before_read) proved_read };
    struct result *to = &results[k];
    (void)steps;
    kernels[k](&road, cells, n, up[0], down[0], to->letters, to->modes, to->counts, &to->queued);
}

static void run_rows(int k, size_t n, uint32_t steps)
{
    static predictor *const kernels[] = { plain_rows, tuned_rows, EARLIER(before_rows) proved_rows };
    (void)steps;
    kernels[k](&road, cells, n, up[0], down[0], word, results[k].rows);
}

static void rank(int k, const struct road *r, const uint32_t *x, size_t n, uint32_t before, uint32_t after)
{
    static ranker *const kernels[] = { plain_nearest, tuned_nearest, EARLIER(before_nearest) proved_nearest };
    kernels[k](r, x, n, before, after, results[k].numbers, results[k].changes);
}

static void run_nearest(int k, size_t n, uint32_t steps)
{
    (void)steps;
    rank(k, &road, cells, n, up[0], down[0]);
}

/* The time must not grow with the jam. */
static void run_small(int k, size_t n, uint32_t steps)
{
    (void)steps;
    rank(k, &small_road, small_cells, n, up[0] / 1000, down[0] / 1000);
}

/* The most there is to do: all are below critical, and each next one is nearer to it and sinks past all before it. */
static void run_rising(int k, size_t n, uint32_t steps)
{
    (void)steps;
    rank(k, &road, rising, n, 0, 0);
}

/* The kernels of the calls that have several contests. */
#define FORECASTERS { "plain C, division", "tuned C, one pass", "tuned C, two passes", "tuned C, limits", "tuned C, floats", \
    EARLIER(BEFORE) "welgadou_forecast" }, 6 + ONE_MORE
#define SETTLERS { "plain C, division", "tuned C, limits", EARLIER(BEFORE) "welgadou_settle" }, 3 + ONE_MORE
#define FAR_SETTLERS { "plain C, division", "tuned C, limits", EARLIER(BEFORE) "welgadou_forecast", "welgadou_settle" }, \
    4 + ONE_MORE
#define RANKERS { "plain C", "tuned C, counting", EARLIER("before") "welgadou_nearest" }, 3 + ONE_MORE

/* A call with its kernels, plain C first and the proved one last, and how often it is made for one time. */
static const struct contest {
    const char *call, *names[KERNELS];
    int kernels, calls, steps;
    void (*run)(int k, size_t n, uint32_t steps);
} contests[] = {
    { "forecast", FORECASTERS, 3, STEPS, run_forecast },
    { "forecast, narrow caps", FORECASTERS, 3, STEPS, run_narrow_forecast },
    { "forecast, one step", FORECASTERS, 1000, 1, run_forecast },
    { "forecast, one step, narrow caps", FORECASTERS, 1000, 1, run_narrow_forecast },
    { "settle", SETTLERS, 3, STEPS, run_settle },
    { "settle, narrow caps", SETTLERS, 3, STEPS, run_narrow_settle },
    { "settle, far looks", FAR_SETTLERS, 10, FAR_STEPS, run_far_settle },
    { "read", { "plain C", "tuned C, two passes", EARLIER("before") "welgadou_read" }, 3 + ONE_MORE, 1000, 0, run_read },
    { "rows", { "plain C", "tuned C, two passes", EARLIER("before") "welgadou_rows" }, 3 + ONE_MORE, 1000, 0, run_rows },
    { "nearest", RANKERS, 100, 0, run_nearest },
    { "nearest, jam 1000", RANKERS, 100, 0, run_small },
    { "nearest, wrong way round", RANKERS, 100, 0, run_rising },
};

static double seconds(void)
{
    struct timespec now;
    clock_gettime(CLOCK_MONOTONIC, &now);
    return (double)now.tv_sec + 1e-9 * (double)now.tv_nsec;
}

/* Whether a kernel came to another result than plain C. */
static int differs(int k) { return memcmp(&results[0], &results[k], sizeof results[0]) != 0; }

/* The best time of each kernel, one after the other in every round. All must come to the same result, but for the
 * earlier state's, whose definitions may have been others. */
static void measure(const struct contest *c, size_t n, uint32_t steps, double best[KERNELS])
{
    memset(results, 0, sizeof results);
    for (int k = 0; k < c->kernels; k++)
        best[k] = 1e9;
    for (int round = 0; round < ROUNDS; round++)
        for (int k = 0; k < c->kernels; k++) {
            double start = seconds();
            for (int call = 0; call < c->calls; call++)
                c->run(k, n, steps);
            double took = seconds() - start;
            if (took < best[k])
                best[k] = took;
        }
    for (int k = 1; k < c->kernels; k++)
        if (strncmp(c->names[k], "before", 6) && differs(k)) {
            fprintf(stderr, "%s: %s differs from plain C\n", c->call, c->names[k]);
            exit(1);
        }
}

/* The ratios at full size, with a word on an earlier state that came to another result, and how the proved call's time
 * grows with cells and, where there are several, with steps. */
static void compare(const struct contest *c)
{
    double best[KERNELS], by_cells[SIZES], by_steps[SIZES], whole;
    int last = c->kernels - 1;
    measure(c, CELLS, (uint32_t)c->steps, best);
    whole = best[last];
    printf("%s, %d cells", c->call, CELLS);
    if (c->steps > 1)
        printf(", %d steps", c->steps);
    if (results[0].steps)
        printf(" (%s after %u)", results[0].settled ? "settled" : "unsettled", results[0].steps);
    printf(", best of %d, ratios of times; one call of welgadou %.2f us\n", ROUNDS, 1e6 * whole / c->calls);
    for (int k = 0; k < c->kernels; k++)
        printf("  %-20s %6.3f of plain C   %6.3f of welgadou%s\n", c->names[k], best[k] / best[0], best[k] / whole,
               differs(k) ? "   (another result)" : "");
    for (int i = 0; i < SIZES; i++) {
        measure(c, (size_t)CELLS >> i, (uint32_t)c->steps, best);
        by_cells[i] = best[last];
        if (c->steps > 1)
            measure(c, CELLS, (uint32_t)c->steps >> i, best);
        by_steps[i] = best[last];
    }
    printf("  time by cells ");
    for (int i = SIZES - 1; i >= 0; i--)
        printf("  %4d %6.3f", CELLS >> i, by_cells[i] / by_cells[0]);
    if (c->steps > 1) {
        printf("\n  time by steps ");
        for (int i = SIZES - 1; i >= 0; i--)
            printf("  %4d %6.3f", c->steps >> i, by_steps[i] / by_steps[0]);
    }
    printf("\n");
}

/* Looks that end at once would show nothing: in each step as much leaves as enters, and some cell changes. */
static void must_go_far(void)
{
    struct result *to = &results[0];
    plain_forecast(&small_road, far_cells, CELLS, far_up, far_down, FAR_STEPS, far_caps, to->cells, &to->entered,
                   &to->left);
    if (to->entered != FAR_FLOW * FAR_STEPS || to->left != FAR_FLOW * FAR_STEPS
        || to->cells[CELLS - 1] == far_cells[CELLS - 1]) {
        fprintf(stderr, "the looks do not go far\n");
        exit(1);
    }
}

/* Caps that are not seen in the result would show nothing. */
static void must_differ(void (*open)(int, size_t, uint32_t), void (*narrow)(int, size_t, uint32_t), uint32_t steps)
{
    memset(results, 0, sizeof results);
    open(0, CELLS, steps);
    narrow(1, CELLS, steps);
    if (!differs(1)) {
        fprintf(stderr, "the narrow caps do not bind\n");
        exit(1);
    }
}

int main(void)
{
    uint32_t seed = 1;
    for (int i = 0; i < CELLS; i++)
        cells[i] = (seed = seed * 1664525u + 1013904223u) % (road.jam + 1);
    for (int i = 0; i < CELLS; i++) {
        small_cells[i] = cells[i] / 1000;
        rising[i] = (uint32_t)i;
    }
    for (int t = 0; t < STEPS; t++) {
        up[t] = (seed = seed * 1664525u + 1013904223u) % (road.jam + 1);
        down[t] = (seed = seed * 1664525u + 1013904223u) % (road.jam + 1);
    }
    /* Every fourth face is narrowed, and carries at most from about a half to two thirds of what it could. */
    for (int i = 0; i <= CELLS; i++) {
        open_caps[i] = WELGADOU_OPEN;
        narrow_caps[i] = i % 4 ? WELGADOU_OPEN : 79000 + (seed = seed * 1664525u + 1013904223u) % 30000;
    }
    for (int i = 0; i < CELLS; i++)
        far_cells[i] = small_road.jam / 2;
    for (int t = 0; t < FAR_STEPS; t++)
        far_up[t] = small_road.jam;
    for (int i = 0; i <= CELLS; i++)
        far_caps[i] = i == CELLS - 1 ? FAR_FLOW - 1 : FAR_FLOW;
    must_differ(run_forecast, run_narrow_forecast, STEPS);
    must_differ(run_forecast, run_narrow_forecast, 1);
    must_differ(run_settle, run_narrow_settle, STEPS);
    must_go_far();
    /* A legal word, most likely not the state's own. */
    for (int i = 0; i <= CELLS; i++)
        do
            word[i] = (uint8_t)((seed = seed * 1664525u + 1013904223u) >> 16) % 3;
        while (i > 0 && ((word[i - 1] == WELGADOU_W && word[i] == WELGADOU_D) ||
                         (word[i - 1] == WELGADOU_L && word[i] == WELGADOU_L)));
    for (size_t i = 0; i < sizeof contests / sizeof contests[0]; i++)
        compare(&contests[i]);
    return 0;
}
