/* A first program with Welgadou: one road, one state, every call of every level.
 * `tests/outside` compiles it as C99 and as C++, runs it and compares what it prints with forecast.expected.
 *
 *     ./archive
 *     gcc -std=c99 -Iinclude examples/c/forecast.c target/staticlib/libwelgadou.a -o forecast
 *
 * or, once `./install PREFIX` has been run and pkg-config finds PREFIX/lib/pkgconfig,
 *
 *     gcc -std=c99 examples/c/forecast.c $(pkg-config --cflags --libs welgadou) -o forecast
 */
#include <inttypes.h>
#include <stdio.h>
#include <string.h>

#include "welgadou.h"

enum { CELLS = 3, STEPS = 4, CALLS = 5 };

/* Free traffic moves 4/5 of a cell a step, a jam's edge 1/5 of a cell back; 1000 units fill a cell, and the flow is
 * greatest at 200. The order is divisor, free, wave, jam, critical. */
static const welgadou_road road = { 5, 4, 1, 1000, 200 };

/* The refusal table in a program's own words. */
static const char *words(uint32_t number)
{
    switch (number) {
    case 0: return "accepted";
    case 1: return "the divisor is 0 or above its ceiling";
    case 2: return "a speed is 0 or above the divisor";
    case 3: return "the jam or the critical density is out of its range";
    case 4: return "the road's two flows at the critical density differ";
    case 5: return "no cells, or more than their ceiling";
    case 6: return "the horizon is above its ceiling";
    case 7: return "a list of ends is not as long as the horizon";
    case 8: return "an output has the wrong length";
    case 9: return "a cell is above the jam density; the place is the cell";
    case 10: return "an upstream end is above the jam density; the place is the step";
    case 11: return "a downstream end is above the jam density; the place is the step";
    case 12: return "the word has a wrong length, an unknown code or an illegal pair; the place is the face, or n + 1 for the length";
    case 13: return "there is no such mode";
    case 14: return "an estimate is not a number from 0 to the jam density; the place says which";
    case 15: return "too many cells for a word count";
    case 16: return "a station's number is not a number, below 0 or infinite, or a speed beside a flow is 0";
    case 17: return "a station's lone speed times the divisor, rounded, is not below free: no single density";
    case 18: return "a station's estimate is below 0 or above the jam density";
    case 19: return "a total since commissioning would pass the largest 64-bit number";
    case 20: return "the list of caps is not one longer than the cells";
    default: return "unknown";
    }
}

/* Says what was refused, and whether anything was. */
static int refused(const char *call, uint32_t number, uint32_t place)
{
    if (number != 0)
        printf("%s: refusal %" PRIu32 " at %" PRIu32 ": %s\n", call, number, place, words(number));
    return number != 0;
}

static void print_cells(const uint32_t *cells)
{
    int i;
    for (i = 0; i < CELLS; i++)
        printf(" %5" PRIu32, cells[i]);
}

static void print_forecast(uint32_t row, const uint32_t *cells, uint64_t entered, uint64_t left)
{
    printf("%5" PRIu32, row);
    print_cells(cells);
    printf(" %8" PRIu64 " %5" PRIu64 "\n", entered, left);
}

/* The units on the road. */
static uint64_t units(const uint32_t *cells)
{
    uint64_t sum = 0;
    int i;
    for (i = 0; i < CELLS; i++)
        sum += cells[i];
    return sum;
}

int main(void)
{
    const uint32_t cells[CELLS] = { 300, 150, 700 };
    const uint32_t upstream[STEPS] = { 100, 100, 120, 150 };
    const uint32_t downstream[STEPS] = { 0, 0, 0, 900 };
    const uint32_t ends[CALLS][2] = { { 100, 0 }, { 100, 0 }, { 1001, 0 }, { 120, 0 }, { 150, 900 } };
    const uint32_t open[CELLS + 1] = { WELGADOU_OPEN, WELGADOU_OPEN, WELGADOU_OPEN, WELGADOU_OPEN };
    const uint32_t roadworks[CELLS + 1] = { WELGADOU_OPEN, 50, WELGADOU_OPEN, WELGADOU_OPEN };
    uint32_t out[CELLS], on_road[CELLS], settled, steps, counts[7], queued, holds, face, place, number;
    uint64_t entered, left, total_entered, total_left, legal;
    uint8_t letters[CELLS + 1], modes[CELLS];
    int64_t rows[CELLS];
    double numerator, estimate;
    uint32_t numbers[CELLS];
    int32_t changes[CELLS];
    uint32_t horizon, call;
    int i;

    /* The header and the library that is linked are of one version. */
    if (welgadou_version() != WELGADOU_VERSION)
        return 1;

    /* The ceilings come from the library. */
    printf("up to %" PRIu32 " cells and %" PRIu32 " steps, divisor up to %" PRIu32 ", jam up to %" PRIu32
           ", words counted up to %" PRIu32 " cells\n",
           welgadou_cells_ceiling(), welgadou_horizon_ceiling(), welgadou_divisor_ceiling(), welgadou_jam_ceiling(),
           welgadou_count_ceiling());

    /* Level 1: the forecast, for each horizon up to the last. Each stands alone here: its totals begin with 0. No face is
     * narrowed. */
    printf("steps  cell 1, 2, 3       entered  left\n");
    for (horizon = 0; horizon <= STEPS; horizon++) {
        total_entered = total_left = 0;
        number = welgadou_forecast(WELGADOU_ROAD(road), cells, CELLS, upstream, horizon, downstream, horizon, horizon,
                                   open, CELLS + 1, out, CELLS, &entered, &left, &total_entered, &total_left, &place);
        if (refused("forecast", number, place))
            return 1;
        print_forecast(horizon, out, entered, left);
    }

    /* Level 1: the last of them again with roadworks: over the face between the cells 1 and 2 go at most 50 units a step. */
    total_entered = total_left = 0;
    number = welgadou_forecast(WELGADOU_ROAD(road), cells, CELLS, upstream, STEPS, downstream, STEPS, STEPS,
                               roadworks, CELLS + 1, out, CELLS, &entered, &left, &total_entered, &total_left, &place);
    if (refused("forecast", number, place))
        return 1;
    printf("with roadworks after cell 1\n");
    print_forecast(STEPS, out, entered, left);

    /* Level 1: the totals since commissioning, over five forecasts of one step, each from the last accepted one's cells.
     * The third has an end above the jam density: it is refused and changes nothing, and the fourth goes on from the
     * second. */
    printf(" call  cell 1, 2, 3       entered  left since commissioning\n");
    memcpy(on_road, cells, sizeof on_road);
    total_entered = total_left = 0;
    for (call = 1; call <= CALLS; call++) {
        const uint32_t *pair = ends[call - 1];
        number = welgadou_forecast(WELGADOU_ROAD(road), on_road, CELLS, &pair[0], 1, &pair[1], 1, 1, open, CELLS + 1,
                                   out, CELLS, &entered, &left, &total_entered, &total_left, &place);
        if (refused("forecast", number, place))
            continue;
        memcpy(on_road, out, sizeof on_road);
        print_forecast(call, on_road, total_entered, total_left);
    }
    printf("%" PRIu64 " units + %" PRIu64 " entered = %" PRIu64 " units + %" PRIu64 " left\n",
           units(cells), total_entered, units(on_road), total_left);
    if (units(cells) + total_entered != units(on_road) + total_left)
        return 1;

    /* Level 1: how the state settles with ends that stay, until a step would keep every density. */
    number = welgadou_settle(WELGADOU_ROAD(road), cells, CELLS, 100, 0, 1000, open, CELLS + 1, out, CELLS, &settled,
                             &steps, &place);
    if (refused("settle", number, place))
        return 1;
    printf("%s after %" PRIu32 " steps:", settled ? "settled" : "unsettled", steps);
    print_cells(out);
    printf("\n");

    /* Level 2: the letters of the faces and the modes of the cells. */
    number = welgadou_read(WELGADOU_ROAD(road), cells, CELLS, 100, 0, letters, CELLS + 1, modes, CELLS, counts,
                           &queued, &place);
    if (refused("read", number, place))
        return 1;
    printf("letters");
    for (i = 0; i <= CELLS; i++)
        printf(" %c", "WLD"[letters[i]]);
    printf(", modes");
    for (i = 0; i < CELLS; i++)
        printf(" %u", (unsigned)modes[i]);
    printf(", cells in each mode");
    for (i = 0; i < 7; i++)
        printf(" %" PRIu32, counts[i]);
    printf(", queued %" PRIu32 "\n", queued);

    /* Level 2: the state fits its own word; after a change of its last letter it does not. */
    number = welgadou_fit(WELGADOU_ROAD(road), cells, CELLS, 100, 0, letters, CELLS + 1, &holds, &face, &place);
    if (refused("fit", number, place))
        return 1;
    printf("the state's own word: %s\n", holds ? "holds" : "does not hold");
    letters[CELLS] = WELGADOU_W;
    number = welgadou_fit(WELGADOU_ROAD(road), cells, CELLS, 100, 0, letters, CELLS + 1, &holds, &face, &place);
    if (refused("fit", number, place))
        return 1;
    printf("with W at the last face: %s, lowest face %" PRIu32 "\n", holds ? "holds" : "does not hold", face);
    letters[CELLS] = WELGADOU_L;

    /* Level 2: the unrounded next densities, times the divisor. */
    number = welgadou_rows(WELGADOU_ROAD(road), cells, CELLS, 100, 0, letters, CELLS + 1, rows, CELLS, &place);
    if (refused("rows", number, place))
        return 1;
    printf("rows");
    for (i = 0; i < CELLS; i++)
        printf(" %" PRId64, rows[i]);
    printf("\n");

    /* Level 2: a filter tries mode 6 for cell 1 with estimates of its own. */
    number = welgadou_candidate(WELGADOU_ROAD(road), 6, 100.25, 299.5, 150.0, &numerator, &place);
    if (refused("candidate", number, place))
        return 1;
    printf("candidate %.2f\n", numerator);

    /* Level 2: how many words a road of three cells can have. */
    number = welgadou_count(CELLS, &legal, &place);
    if (refused("count", number, place))
        return 1;
    printf("legal words of %d cells: %" PRIu64 "\n", CELLS, legal);

    /* Level 3: a station gives a density, or a flow with a speed, or a speed alone. */
    number = welgadou_station_density(WELGADOU_ROAD(road), 250.5, &estimate, &place);
    if (refused("station density", number, place))
        return 1;
    printf("station estimates %.2f", estimate);
    number = welgadou_station_flow(WELGADOU_ROAD(road), 80, 0.8, &estimate, &place);
    if (refused("station flow", number, place))
        return 1;
    printf(" %.2f", estimate);
    number = welgadou_station_speed(WELGADOU_ROAD(road), 0.6, &estimate, &place);
    if (refused("station speed", number, place))
        return 1;
    printf(" %.2f\n", estimate);

    /* Level 3: which detector error would mislead, the most fragile cell first. */
    number = welgadou_nearest(WELGADOU_ROAD(road), cells, CELLS, 100, 0, numbers, CELLS, changes, CELLS, &place);
    if (refused("nearest", number, place))
        return 1;
    printf("the next mode is near:");
    for (i = 0; i < CELLS; i++)
        printf(" cell %" PRIu32 " by %" PRId32 "%s", numbers[i], changes[i], i < CELLS - 1 ? "," : "\n");

    /* A refusal: D may not follow W. */
    letters[1] = WELGADOU_W;
    letters[2] = WELGADOU_D;
    number = welgadou_rows(WELGADOU_ROAD(road), cells, CELLS, 100, 0, letters, CELLS + 1, rows, CELLS, &place);
    return refused("rows", number, place) ? 0 : 1;
}
