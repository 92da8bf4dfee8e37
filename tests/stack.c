/* The stack that each call takes: every call of the header is made on a stack of its own that was painted before, and the
 * paint that is gone says how deep the call went. Prints the deepest of each call. Fails where the forecast, which may hold
 * one working list of 256 densities, takes more than WELGADOU_STACK, where any other call, which holds none, takes more than
 * NO_LIST, and where no forecast was made in the working list. A list is 1,024 bytes: one more that is held during a run, or
 * one in any other call, is noticed.
 *
 *     gcc -std=gnu99 -O2 -Iinclude tests/stack.c target/staticlib/libwelgadou.a -o stack
 */
#include <stdio.h>
#include <string.h>
#include <ucontext.h>

#include "welgadou.h"

enum { CELLS = WELGADOU_CELLS_CEILING, STEPS = WELGADOU_HORIZON_CEILING, PAINTED = 1 << 16, PAINT = 0xa5, NO_LIST = 512 };

static unsigned char stack[PAINTED] __attribute__((aligned(64)));
static ucontext_t here, there;

/* What the calls are given and what they write; none of it stands on the painted stack. */
static const welgadou_road roads[] = {
    { 5, 4, 1, 1000, 200 },
    { 1, 1, 1, 2, 1 },
    { WELGADOU_DIVISOR_CEILING, WELGADOU_DIVISOR_CEILING, WELGADOU_DIVISOR_CEILING, WELGADOU_JAM_CEILING,
      WELGADOU_JAM_CEILING / 2 },
    { 0, 4, 1, 1000, 200 },
    { 5, 6, 1, 1000, 200 },
    { 5, 4, 1, 1000, 1000 },
    { 5, 4, 1, 1000, 201 },
};
static welgadou_road road;
static uint32_t cells[CELLS + 1], upstream[STEPS + 1], downstream[STEPS + 1], caps[CELLS + 2], out[CELLS + 1];
static uint32_t n, horizon, caps_len, mode;
static uint32_t settled, steps, counts[7], queued, holds, face, place, number;
static uint64_t entered, left, total_entered, total_left, words;
static uint8_t letters[CELLS + 2], modes[CELLS + 1];
static int64_t rows[CELLS + 1];
static uint32_t ranked[CELLS + 1];
static int32_t changes[CELLS + 1];
static double given[3], result;
static volatile uint32_t asked;

/* The forecasts that were refused with 19, which is judged after the run: some must be. */
static unsigned full;

static void forecast(void)
{
    number = welgadou_forecast(WELGADOU_ROAD(road), cells, n, upstream, horizon, downstream, horizon, horizon, caps,
                               caps_len, out, n, &entered, &left, &total_entered, &total_left, &place);
    full += number == 19;
}

static void settle(void)
{
    number = welgadou_settle(WELGADOU_ROAD(road), cells, n, upstream[0], downstream[0], horizon, caps, caps_len, out, n,
                             &settled, &steps, &place);
}

static void read_state(void)
{
    number = welgadou_read(WELGADOU_ROAD(road), cells, n, upstream[0], downstream[0], letters, n + 1, modes, n, counts,
                           &queued, &place);
}

static void fit(void)
{
    number = welgadou_fit(WELGADOU_ROAD(road), cells, n, upstream[0], downstream[0], letters, n + 1, &holds, &face,
                          &place);
}

static void apply_rows(void)
{
    number = welgadou_rows(WELGADOU_ROAD(road), cells, n, upstream[0], downstream[0], letters, n + 1, rows, n, &place);
}

static void candidate(void)
{
    number = welgadou_candidate(WELGADOU_ROAD(road), mode, given[0], given[1], given[2], &result, &place);
}

static void count(void)
{
    number = welgadou_count(n, &words, &place);
}

static void station_density(void)
{
    number = welgadou_station_density(WELGADOU_ROAD(road), given[0], &result, &place);
}

static void station_flow(void)
{
    number = welgadou_station_flow(WELGADOU_ROAD(road), given[0], given[1], &result, &place);
}

static void station_speed(void)
{
    number = welgadou_station_speed(WELGADOU_ROAD(road), given[0], &result, &place);
}

static void nearest(void)
{
    number = welgadou_nearest(WELGADOU_ROAD(road), cells, n, upstream[0], downstream[0], ranked, n, changes, n, &place);
}

static void numbers(void)
{
    asked = welgadou_version() + welgadou_cells_ceiling() + welgadou_horizon_ceiling() + welgadou_divisor_ceiling()
            + welgadou_jam_ceiling() + welgadou_count_ceiling();
    number = 0;
}

static struct {
    const char *name;
    void (*make)(void);
    size_t most, deepest;
    unsigned accepted, refused;
} calls[] = {
    { "forecast", forecast, WELGADOU_STACK, 0, 0, 0 },
    { "settle", settle, NO_LIST, 0, 0, 0 },
    { "read", read_state, NO_LIST, 0, 0, 0 },
    { "fit", fit, NO_LIST, 0, 0, 0 },
    { "rows", apply_rows, NO_LIST, 0, 0, 0 },
    { "candidate", candidate, NO_LIST, 0, 0, 0 },
    { "count", count, NO_LIST, 0, 0, 0 },
    { "station_density", station_density, NO_LIST, 0, 0, 0 },
    { "station_flow", station_flow, NO_LIST, 0, 0, 0 },
    { "station_speed", station_speed, NO_LIST, 0, 0, 0 },
    { "nearest", nearest, NO_LIST, 0, 0, 0 },
    { "version, ceilings", numbers, NO_LIST, 0, 0, 0 },
};
enum { CALLS = sizeof calls / sizeof *calls };

/* The call that is made next, and where the stack stood when it was. */
static void (*make)(void);
static unsigned char *top;

/* Makes the call from a frame of its own. What was written below `top` is the call's: its arguments, its return address
 * and its frame, and besides the few bytes of the function above that passes the arguments. */
static void on_the_painted_stack(void)
{
    top = (unsigned char *)__builtin_frame_address(0);
    make();
    __asm__ volatile("" ::: "memory"); /* no jump in the place of the call, which would leave this frame first */
}

/* How far below `top` the paint is gone. */
static size_t depth(void (*call)(void))
{
    size_t i;
    memset(stack, PAINT, sizeof stack);
    getcontext(&there);
    there.uc_stack.ss_sp = stack;
    there.uc_stack.ss_size = sizeof stack;
    there.uc_link = &here;
    make = call;
    makecontext(&there, on_the_painted_stack, 0);
    swapcontext(&here, &there);
    for (i = 0; i < sizeof stack && stack[i] == PAINT; i++)
        ;
    return (size_t)(top - (stack + i));
}

static void make_all(void)
{
    size_t i;
    for (i = 0; i < CALLS; i++) {
        size_t taken = depth(calls[i].make);
        if (taken > calls[i].deepest)
            calls[i].deepest = taken;
        if (number == 0)
            calls[i].accepted++;
        else
            calls[i].refused++;
    }
}

/* Densities all over the range and caps that now and then bind, the same in every run. */
static void fill(uint32_t seed, uint32_t jam)
{
    size_t i;
    for (i = 0; i <= CELLS; i++)
        cells[i] = (seed = seed * 1664525u + 1013904223u) % (jam + 1);
    for (i = 0; i <= CELLS + 1; i++)
        caps[i] = (seed = seed * 1664525u + 1013904223u) >> 31 ? WELGADOU_OPEN : seed % (jam + 1);
    for (i = 0; i <= STEPS; i++) {
        upstream[i] = (seed = seed * 1664525u + 1013904223u) % (jam + 1);
        downstream[i] = (seed = seed * 1664525u + 1013904223u) % (jam + 1);
    }
}

int main(void)
{
    static const uint32_t lengths[] = { 0, 1, 2, 3, 7, 8, 40, 41, CELLS - 1, CELLS, CELLS + 1 };
    static const uint32_t horizons[] = { 0, 1, 5, STEPS, STEPS + 1 };
    static const uint32_t all_modes[] = { 0, 1, 2, 3, 4, 5, 6, 7, 8, 257 };
    static const double all_given[] = { 0.0, 0.25, 1.0, 150.5, 1000.0, 1e6, -1.0, 1e300 };
    size_t r, l, h, i, failed = 0;

    for (r = 0; r < sizeof roads / sizeof *roads; r++) {
        road = roads[r];
        for (l = 0; l < sizeof lengths / sizeof *lengths; l++)
            for (h = 0; h < sizeof horizons / sizeof *horizons; h++) {
                n = lengths[l];
                horizon = horizons[h];
                for (i = 0; i < 9; i++) {
                    mode = all_modes[(h + i) % 10];
                    given[0] = all_given[i % 8];
                    given[1] = all_given[(i + h) % 8];
                    given[2] = all_given[(i + l) % 8];
                    fill((uint32_t)(r + l + h + i), roads[r].jam);
                    total_entered = i == 4 ? UINT64_MAX : 0;
                    total_left = i == 5 ? UINT64_MAX : 0;
                    caps_len = i == 8 ? n : n + 1;
                    if (i == 6)
                        cells[n / 2] = roads[r].jam + 1;
                    if (i == 7)
                        upstream[0] = downstream[0] = roads[r].jam + 1;
                    make_all();
                }
            }
    }
    for (i = 0; i < CALLS; i++) {
        printf("%-20s %4lu bytes of at most %4lu, %u accepted, %u refused\n", calls[i].name,
               (unsigned long)calls[i].deepest, (unsigned long)calls[i].most, calls[i].accepted, calls[i].refused);
        if (calls[i].deepest > calls[i].most)
            failed++;
    }
    if (full == 0) {
        printf("no forecast was refused with 19\n");
        failed++;
    }
    printf("%s: the forecast takes at most %d bytes of stack, any other call %d\n", failed ? "FAILED" : "ok",
           WELGADOU_STACK, NO_LIST);
    return failed != 0;
}
