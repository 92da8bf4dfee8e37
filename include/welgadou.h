/* welgadou.h - a traffic forecast for one uniform road, for C99 and C++.
 *
 * Welgadou works the triangular Godunov scheme, also called the cell transmission model, on whole numbers. This file is
 * everything that a C or C++ program needs to know of it. Link with libwelgadou.a (x86-64 Linux), which
 * `./archive` writes, or with what `./install PREFIX` puts in place for pkg-config.
 *
 * WHAT IS PROVED
 *
 * Every function below was proved against its contract before it was compiled, for all inputs, not only for tested ones:
 *
 *   - It returns, whatever it is given.
 *   - It judges road, lists and values by itself. Bad input gets the first number in the call's order of checks (see
 *     REFUSALS) that applies to it, with that number's place. Nothing else is ever refused.
 *   - After a refusal `place` has the place, and everything else that a call may write its former contents.
 *   - The results of an accepted call are those that the comments below define, number by number.
 *   - A forecast's densities lie from 0 to jam, whatever its caps; the units at the start plus those entered are the
 *     units at the end plus those left; and the divisor times the distance from the same forecast, with the same caps,
 *     made without rounding, summed over the cells, is at most cells x steps x (divisor - 1).
 *   - The cells that a forecast or a settling run hands back are accepted as the next one's start, on the same road,
 *     whatever its other inputs, as long as these pass their own checks and no total would pass the largest: for ever.
 *     Where forecasts carry their totals on from 0, on whatever roads and from whatever cells, none is refused with 19
 *     while it and the accepted ones before it make at most 18,446,744,073,709 steps together.
 *   - A forecast in two parts on one road, the second fed the first one's cells, with the same caps, hands back the cells
 *     after the steps of both, and the units entered and left add up: what one call over both hands back, where the
 *     ceiling allows it.
 *   - Over any chain of forecasts that begins with both totals 0, each fed with the last accepted one's cells and totals,
 *     the units at the beginning plus the total entered are the units on the road plus the total left. A refused call in
 *     the chain alters neither cells nor totals.
 *   - The estimate that a station call hands back is accepted by welgadou_candidate in each of its three places, on the
 *     same road.
 *
 * What the comments below say of a call is a clause of its contract, or follows from one at sight, but for these:
 *
 *   - Proved beside the contracts: that a call returns (of every function, by the prover); "for ever" and the totals of a
 *     chain, of which one link follows from the contracts of two calls; how long totals that begin with 0 have room; that
 *     a run in parts is the run; the printed table of the modes; which densities move at which speed
 *     (welgadou_station_speed), without rounding; that any number of further steps keeps a settled state; that a foreign
 *     word's number may be negative (a case).
 *   - Not proved, but read off the code and the build: which calls use floating point; what is said of null pointers,
 *     memory, other libraries, threads and unwinding; that the seven instructions (a memset) by which the compiled code
 *     clears the forecast's working list do so; that a refused call stores nothing (the contract says that the contents
 *     are the same, and of a NaN that it is still one); and where it stands in brackets.
 *   - Measured, and held to its figure by a test: the stack.
 *
 * docs/CERTIFICATE.md names the clause or theorem behind each sentence, and what the proofs rest on.
 *
 * WHAT THE CALLER OWES
 *
 *   - A pointer stands for as many readable (`const`) or writable values as the length beside it says, a pointer
 *     without a length for one value, `counts` for seven. `total_entered` and `total_left` are read and written.
 *   - Memory that a call writes overlaps nothing else that the same call is given.
 *   - All of it stays valid, and no one else changes it, until the call has returned.
 *   - Floating point is in the state that a C program starts in: rounding to nearest, subnormal numbers kept, no traps.
 *     Only welgadou_candidate, welgadou_station_density, welgadou_station_flow and welgadou_station_speed use it. They
 *     may raise any floating-point flag, accepted or refused, as a NaN raises FE_INVALID: look at no flag across them,
 *     and have no trap enabled. (Linking with -ffast-math may change that state.)
 *   - WELGADOU_STACK bytes of stack for a call, its arguments included. (Linked as a shared library, the first call of
 *     each function may take more, for the dynamic linker.)
 *
 * A list of length 0 may come with a null pointer: nothing is read or written through it. Other pointers are never null.
 * Nothing else is owed. The library keeps nothing between calls, takes no heap and calls no other library, so that
 * several threads may call it at once, each with memory of its own. The stack of the largest call, welgadou_forecast, was
 * measured at up to 1,793 bytes; 1,024 of them are a working list of 256 densities, the only list of densities that the
 * library has besides yours. Every other call was measured at up to 496 bytes, and a test holds it to 512.
 *
 * No call throws, and none calls back. The library has no unwind tables: neither an exception, such as one thrown by a
 * signal's handler or by the cancellation of a thread, nor a debugger finds its way out of a call that it interrupts.
 *
 * EXPORTED NAMES
 *
 * A call whose parameters change gets the next number in its exported name, and a macro here maps the plain name to it:
 * welgadou_forecast is exported as welgadou_forecast_3, welgadou_settle as welgadou_settle_2, welgadou_candidate as
 * welgadou_candidate_2. So what was compiled with an older header does not link, where it would else pass wrong arguments
 * in silence. Write the plain names; only dlsym and a debugger want the exported ones.
 *
 * THE ROAD AND ITS UNITS
 *
 * A unit is a part of a vehicle, of a size that you choose. A density is a number of whole units in one cell, a flow a
 * number of units in one step. A road is five numbers, the same at every call:
 *
 *   divisor    the denominator of both speeds, from 1 to its ceiling
 *   free       free traffic moves free/divisor cells a step; from 1 to divisor
 *   wave       a jam's edge moves back wave/divisor cells a step; from 1 to divisor
 *   jam        the density of standing traffic, from 2 to its ceiling
 *   critical   the density at which the flow is greatest, from 1 to jam - 1
 *
 * and free x critical = wave x (jam - critical). The cells of a list are numbered from 1, in driving direction. Beyond
 * them lie two ends, `upstream` before cell 1 and `downstream` after the last. With n cells there are n + 1 faces: face 0
 * lies before cell 1, face i between the cells i and i + 1, face n after cell n.
 *
 * FLOW AND LETTER OF A FACE
 *
 * With density a upstream of a face and b downstream of it,
 *
 *   numerator = the smaller of free x min(a, critical) and wave x (jam - max(b, critical))
 *   units     = numerator / divisor, to the nearest whole number, an exact half up
 *
 * and the face has one letter, given as a one-byte code:
 *
 *   W, 0   b is above critical, and wave x (jam - b) < free x a
 *   L, 1   a is above critical, b is not
 *   D, 2   a is not above critical, and wave x (jam - b) >= free x a
 *
 * A word is the letters of all faces, face 0 first. D never follows W, and L never follows L: a word that keeps to this
 * is legal.
 *
 * STEPS AND CAPS
 *
 * Roadworks narrow single faces. A forecast and a settling run take a list of caps, whole units a step, one a face, face 0
 * first, the same in all steps of the call. A face then moves the smaller of its units and its cap; without rounding, the
 * smaller of numerator / divisor and its cap. 0 closes a face, WELGADOU_OPEN leaves it as it is. A cap has no bound: any
 * number is accepted. Letters, words, modes and rows describe the road without caps.
 *
 * A step moves what all faces move at once, worked from the densities before it: a cell's new density is its old one,
 * plus what moves over the face before it, minus what moves over the face after it.
 *
 * REFUSALS
 *
 * A call returns 0 where it accepts its input, else a number of this table. `place` is written in both cases.
 *
 *    Number  Reason                                                    Place
 *     1      divisor is 0 or above its ceiling                         0
 *     2      free or wave is 0 or above divisor                        0
 *     3      jam or critical is out of its range                       0
 *     4      free x critical is not wave x (jam - critical)            0
 *     5      there are no cells, or more than their ceiling            0
 *     6      the horizon is above its ceiling                          0
 *     7      a list of ends is not as long as the horizon              0
 *     8      an output has not the length that its call asks for       0
 *     9      a cell is above jam                                       the first such cell, from 1
 *    10      an upstream end is above jam                              the first such step, from 0
 *    11      a downstream end is above jam                             the first such step, from 0
 *    12      a word is not n + 1 letters long                          n + 1
 *            else: it has an unknown code or an illegal pair           the lowest such face; of a pair, the second
 *    13      the mode is not 1 to 7                                    0
 *    14      an estimate is not a number, below 0 or above jam         the first such: 1 left, 2 own, 3 right
 *    15      cells of a word count are above their ceiling             0
 *    16      a station's number is not a number, below 0 or infinite,  0
 *            or a speed beside a flow is 0
 *    17      a station's lone speed x divisor, rounded, is not below   0
 *            free: no single density
 *    18      a station's estimate is below 0 or above jam              0
 *    19      total_entered or total_left would pass                    0
 *            18,446,744,073,709,551,615
 *    20      a list of caps is not n + 1 long                          0
 *    (none)  0: accepted                                               0
 *
 * A call with one pair of ends reports 10 and 11 at place 0. The number 12 takes the lowest face with either fault.
 *
 * Of several numbers that apply a call returns the first in its order of checks. For two calls this order is
 *
 *    welgadou_forecast   1 to 8, 20, 9 to 11, 19
 *    welgadou_settle     1 to 6, 8, 20, 9 to 11
 *
 * and for every other call it is that of the numbers: the lowest one is returned.
 *
 * After a refusal nothing but `place` has changed: mend what number and place name, and call again. The same input always
 * gets the same answer.
 */
#ifndef WELGADOU_H
#define WELGADOU_H

#include <stddef.h>
#include <stdint.h>

#ifdef __cplusplus
extern "C" {
#endif

/* The version of this header: ten thousand a major, a hundred a minor version. 0.11.0 is 1100. */
#define WELGADOU_VERSION 1100

/* Returns: the version of the library that is linked, WELGADOU_VERSION where it is the one of this header. */
uint32_t welgadou_version(void);

/* The bytes of stack that suffice for any call. */
#define WELGADOU_STACK 1920

/* The letter codes of a word. */
enum { WELGADOU_W = 0, WELGADOU_L = 1, WELGADOU_D = 2 };

/* The cap of a face that is not narrowed: under it a face moves its units as if there were no cap. */
#define WELGADOU_OPEN UINT32_C(4294967295)

/* A road for a program to keep, and its five numbers in the order in which every call takes them:
 *
 *     const welgadou_road road = { 5, 4, 1, 1000, 200 };
 *     number = welgadou_station_speed(WELGADOU_ROAD(road), 0.6, &estimate, &place);
 *
 * The calls themselves take five numbers. WELGADOU_ROAD names its argument five times: give it a variable. */
typedef struct {
    uint32_t divisor, free, wave, jam, critical;
} welgadou_road;

#define WELGADOU_ROAD(r) (r).divisor, (r).free, (r).wave, (r).jam, (r).critical

/* ------------------------------------------------------------------------------------------------------------------
 * Ceilings: the largest values that are accepted. Ask the functions for them. The macros are for the sizes of arrays
 * alone, which C fixes when it compiles: they are those of the library with this header's version.
 * ------------------------------------------------------------------------------------------------------------------ */

#define WELGADOU_CELLS_CEILING 256u
#define WELGADOU_HORIZON_CEILING 1440u
#define WELGADOU_DIVISOR_CEILING 4096u
#define WELGADOU_JAM_CEILING 1000000u
#define WELGADOU_COUNT_CEILING 40u

/* Returns: the largest number of cells in a list. */
uint32_t welgadou_cells_ceiling(void);

/* Returns: the largest horizon, in steps. */
uint32_t welgadou_horizon_ceiling(void);

/* Returns: the largest divisor of a road. */
uint32_t welgadou_divisor_ceiling(void);

/* Returns: the largest jam density of a road. */
uint32_t welgadou_jam_ceiling(void);

/* Returns: the largest number of cells in a word count. */
uint32_t welgadou_count_ceiling(void);

/* ------------------------------------------------------------------------------------------------------------------
 * Level 1: forecast and settling run
 * ------------------------------------------------------------------------------------------------------------------ */

/* Makes `horizon` steps from the given cells, each with its own pair of ends, and keeps the totals since commissioning:
 * hand over two variables that began with 0, and the last accepted forecast's cells. Then the units at commissioning plus
 * the total entered are the units on the road plus the total left, whatever calls were refused in between. A settling run
 * counts nothing: to go on from its cells, begin with totals of 0 again.
 *
 * Returns:  0, or the number of the refusal.
 * In:       divisor, free, wave, jam, critical: the road.
 *           cells, cells_len:             the densities at the start, n = cells_len of them.
 *           upstream, upstream_len:       the density before cell 1, one for each step, the first step's first.
 *           downstream, downstream_len:   the density after cell n, likewise. Both lengths are `horizon`.
 *           horizon:                      how many steps to make. With 0 the start comes back.
 *           caps, caps_len:               the most that each face moves in a step; caps_len is n + 1.
 * In/Out:   total_entered, total_left:    the totals so far; where 0 is returned the first is increased by `entered`, the
 *                                         second by `left`.
 * Out:      out, out_len:                 the n densities after the last step; out_len is n.
 *           entered:                      the units that moved over face 0, in all steps of this call together.
 *           left:                         the units that moved over face n, in all steps of this call together.
 *           place:                        0, or the place of the refusal.
 * Refusals: 1 to 8, 20, 9 to 11, 19, judged in this order.
 */
#define welgadou_forecast welgadou_forecast_3
uint32_t welgadou_forecast(uint32_t divisor, uint32_t free, uint32_t wave, uint32_t jam, uint32_t critical,
                           const uint32_t *cells, size_t cells_len,
                           const uint32_t *upstream, size_t upstream_len,
                           const uint32_t *downstream, size_t downstream_len,
                           uint32_t horizon,
                           const uint32_t *caps, size_t caps_len,
                           uint32_t *out, size_t out_len,
                           uint64_t *entered, uint64_t *left,
                           uint64_t *total_entered, uint64_t *total_left, uint32_t *place);

/* Steps with one pair of ends until a step would be still, or the horizon is used up. A step is still where it keeps every
 * density, so that a settled state is fixed: any number of further steps with the same ends and caps keeps it. Settled or
 * not, the cells handed back are those of a forecast from the same cells over the horizon, with lists of copies of the
 * pair for its ends, the same caps and totals of 0; such a forecast is accepted.
 *
 * The meaning of settled changed with version 0.9.0, while the call's name and arguments stayed: before, a step was still
 * where every face kept its letter and the cells kept their sum, even if densities changed. What was settled then may now
 * take more steps, or be unsettled.
 *
 * Returns:  0, or the number of the refusal.
 * In:       divisor, free, wave, jam, critical: the road.
 *           cells, cells_len:             the densities at the start, n = cells_len of them.
 *           upstream, downstream:         the densities beyond the two ends, in every step. They are judged even where
 *                                         the horizon is 0.
 *           horizon:                      how many steps to make at most.
 *           caps, caps_len:               the most that each face moves in a step; caps_len is n + 1.
 * Out:      out, out_len:                 the n densities reached; out_len is n.
 *           settled:                      1 where some k below the horizon has step k + 1 still, else 0.
 *           steps:                        the least such k, else the horizon: the steps that lead to `out`.
 *           place:                        0, or the place of the refusal.
 * Refusals: 1 to 6, 8, 20, 9 to 11, judged in this order.
 */
#define welgadou_settle welgadou_settle_2
uint32_t welgadou_settle(uint32_t divisor, uint32_t free, uint32_t wave, uint32_t jam, uint32_t critical,
                         const uint32_t *cells, size_t cells_len,
                         uint32_t upstream, uint32_t downstream,
                         uint32_t horizon,
                         const uint32_t *caps, size_t caps_len,
                         uint32_t *out, size_t out_len,
                         uint32_t *settled, uint32_t *steps, uint32_t *place);

/* ------------------------------------------------------------------------------------------------------------------
 * Level 2: letters, modes and rows
 *
 * The mode of a cell follows from the letters of the faces before and after it. Each mode has a row, which gives the
 * density of a cell in that mode after one step without caps, times the divisor, before any rounding:
 *
 *    Mode  Letters  Row
 *     1    W W      divisor x own  - wave x own      + wave x right
 *     2    W L      divisor x own  - wave x own                      + wave x critical
 *     3    L W      divisor x own                    + wave x right  - wave x critical
 *     4    L D      divisor x own  - free x own                      + free x critical
 *     5    D W      divisor x own  + free x left     + wave x right  - wave x jam
 *     6    D L      divisor x own  + free x left                     - free x critical
 *     7    D D      divisor x own  + free x left     - free x own
 *
 * where left, own and right are the densities before, in and after the cell, an end's beyond the first and the last one.
 * ------------------------------------------------------------------------------------------------------------------ */

/* Reads a state: the letter of each face and the mode of each cell.
 *
 * Returns:  0, or the number of the refusal.
 * In:       divisor, free, wave, jam, critical: the road.
 *           cells, cells_len:             the densities, n = cells_len of them.
 *           upstream, downstream:         the densities beyond the two ends.
 * Out:      letters, letters_len:         the state's word, one code a face; letters_len is n + 1.
 *           modes, modes_len:             the mode of each cell, 1 to 7; modes_len is n.
 *           counts:                       seven numbers: counts[m - 1] cells are in mode m. Their sum is n.
 *           queued:                       how many cells are denser than critical; a cell at critical is not queued.
 *                                         (Before version 0.7.0 it was how many are in the modes 1, 2 and 3.)
 *           place:                        0, or the place of the refusal.
 * Refusals: 1 to 5, 8 to 11; 8 where either output has the wrong length.
 */
uint32_t welgadou_read(uint32_t divisor, uint32_t free, uint32_t wave, uint32_t jam, uint32_t critical,
                       const uint32_t *cells, size_t cells_len,
                       uint32_t upstream, uint32_t downstream,
                       uint8_t *letters, size_t letters_len,
                       uint8_t *modes, size_t modes_len,
                       uint32_t *counts, uint32_t *queued, uint32_t *place);

/* Tests whether a state has the given word.
 *
 * Returns:  0, or the number of the refusal.
 * In:       divisor, free, wave, jam, critical: the road.
 *           cells, cells_len:             the densities, n = cells_len of them.
 *           upstream, downstream:         the densities beyond the two ends.
 *           word, word_len:               a legal word, n + 1 letter codes.
 * Out:      holds:                        1 where every face has the word's letter, else 0.
 *           face:                         the lowest face that has another letter; 0 where all hold.
 *           place:                        0, or the place of the refusal.
 * Refusals: 1 to 5, 9 to 12.
 */
uint32_t welgadou_fit(uint32_t divisor, uint32_t free, uint32_t wave, uint32_t jam, uint32_t critical,
                      const uint32_t *cells, size_t cells_len,
                      uint32_t upstream, uint32_t downstream,
                      const uint8_t *word, size_t word_len,
                      uint32_t *holds, uint32_t *face, uint32_t *place);

/* Applies the rows of a legal word to a state, whether or not the word is the state's own. With its own word each number
 * is exactly the next density before rounding, times the divisor, and the rounded one times the divisor is less than a
 * divisor away: of a step with open caps at every cell, of a step with any caps at each cell where neither face's cap
 * binds, that is where the numerator of the face before it and that of the face after it are at most cap x divisor.
 * Elsewhere the number is the same, the row's, and says nothing of the capped step.
 * With a foreign word a number may be negative.
 *
 * Returns:  0, or the number of the refusal.
 * In:       divisor, free, wave, jam, critical: the road.
 *           cells, cells_len:             the densities, n = cells_len of them.
 *           upstream, downstream:         the densities beyond the two ends.
 *           word, word_len:               a legal word, n + 1 letter codes.
 * Out:      out, out_len:                 the value of each cell's row; out_len is n.
 *           place:                        0, or the place of the refusal.
 * Refusals: 1 to 5, 8 to 12.
 */
uint32_t welgadou_rows(uint32_t divisor, uint32_t free, uint32_t wave, uint32_t jam, uint32_t critical,
                       const uint32_t *cells, size_t cells_len,
                       uint32_t upstream, uint32_t downstream,
                       const uint8_t *word, size_t word_len,
                       int64_t *out, size_t out_len, uint32_t *place);

/* Applies the row of one mode to estimates of three neighbouring densities, for a filter that tries modes. A row is four
 * doubles, each a whole number without error: the coefficients of left, own and right, and the constant. The result is
 * ((left x coefficient + own x coefficient) + right x coefficient) + constant, each operation rounded once, to nearest.
 * Where the three estimates are whole numbers it is the row's value without error. It is never -0.0.
 *
 * Returns:  0, or the number of the refusal.
 * In:       divisor, free, wave, jam, critical: the road.
 *           mode:                         1 to 7; any other number is refused, also one that a byte does not hold.
 *           left, own, right:             the estimates, each from 0 to jam, fractions allowed. -0.0 counts as 0.
 * Out:      numerator:                    the estimate of the own density after one step, times the divisor.
 *           place:                        0, or the place of the refusal.
 * Refusals: 1 to 4, 13, 14.
 */
#define welgadou_candidate welgadou_candidate_2
uint32_t welgadou_candidate(uint32_t divisor, uint32_t free, uint32_t wave, uint32_t jam, uint32_t critical,
                            uint32_t mode, double left, double own, double right,
                            double *numerator, uint32_t *place);

/* Counts the legal words of a road of so many cells: the words of cells + 1 letters. From one cell on, each of them is
 * the word of some state, on every accepted road.
 *
 * Returns:  0, or the number of the refusal.
 * In:       cells:                        how many cells, from 0 to their ceiling.
 * Out:      words:                        how many legal words there are.
 *           place:                        0 in either case.
 * Refusals: 15.
 */
uint32_t welgadou_count(uint32_t cells, uint64_t *words, uint32_t *place);

/* ------------------------------------------------------------------------------------------------------------------
 * Level 3: site
 *
 * A station is a detector on the road. It gives a density, or a flow with a speed, or a speed alone. Each kind has its
 * call, which makes of it one estimate of the density there, for a filter:
 *
 *    Given            Estimate
 *    density          density
 *    flow and speed   flow / speed
 *    speed            (wave x jam) / (speed x divisor + wave)
 *
 * in doubles, each operation rounded once, to nearest. Densities are in units a cell, flows in units a step, speeds in
 * cells a step, fractions allowed. A given number is finite and not below 0; -0.0 counts as 0. An accepted estimate is
 * from 0 to jam: welgadou_candidate accepts it in each of its three places, on the same road.
 *
 * How near is the next mode? A detector's error misleads an operator where it alters the word of the state, from which
 * the modes are read. welgadou_nearest says for each cell how large such an error is at least.
 * ------------------------------------------------------------------------------------------------------------------ */

/* Takes a station's density for the estimate, unchanged bit for bit.
 *
 * Returns:  0, or the number of the refusal.
 * In:       divisor, free, wave, jam, critical: the road.
 *           density:                      what the station gives, from 0 to jam.
 * Out:      estimate:                     the density; -0.0 where it is -0.0.
 *           place:                        0 in either case.
 * Refusals: 1 to 4, 16, 18.
 */
uint32_t welgadou_station_density(uint32_t divisor, uint32_t free, uint32_t wave, uint32_t jam, uint32_t critical,
                                  double density,
                                  double *estimate, uint32_t *place);

/* Estimates the density from a flow and the speed beside it.
 *
 * Returns:  0, or the number of the refusal.
 * In:       divisor, free, wave, jam, critical: the road.
 *           flow, speed:                  what the station gives. The speed is not 0, nor -0.0: else 16.
 * Out:      estimate:                     flow / speed; -0.0 where the flow is -0.0.
 *           place:                        0 in either case.
 * Refusals: 1 to 4, 16, 18; 18 also where the quotient is too large for a double.
 */
uint32_t welgadou_station_flow(uint32_t divisor, uint32_t free, uint32_t wave, uint32_t jam, uint32_t critical,
                               double flow, double speed,
                               double *estimate, uint32_t *place);

/* Estimates the density from a speed alone: the density above critical at which traffic moves so fast. Up to critical
 * it moves at the free speed, free/divisor, whatever its density, and nowhere faster: a speed that is not below the free
 * speed has no single density.
 *
 * Returns:  0, or the number of the refusal.
 * In:       divisor, free, wave, jam, critical: the road.
 *           speed:                        what the station gives. speed x divisor, rounded, is below free: else 17.
 * Out:      estimate:                     (wave x jam) / (speed x divisor + wave), from critical to jam, both included.
 *                                         (It is jam where the speed is 0. For a speed just below the free speed,
 *                                         rounding may give critical itself.)
 *           place:                        0 in either case.
 * Refusals: 1 to 4, 16, 17. Never 18.
 */
uint32_t welgadou_station_speed(uint32_t divisor, uint32_t free, uint32_t wave, uint32_t jam, uint32_t critical,
                                double speed,
                                double *estimate, uint32_t *place);

/* Ranks the cells by how small a change of the one cell's density alters the state's word, all other cells and both ends
 * as they are. A cell's change is the smallest in size with which its density stays from 0 to jam and the word does not
 * stay as it was; where as much down as up would do, it is the one down. Every cell has such a change, and no change of
 * smaller size alters the word.
 *
 * Returns:  0, or the number of the refusal.
 * In:       divisor, free, wave, jam, critical: the road.
 *           cells, cells_len:             the densities, n = cells_len of them.
 *           upstream, downstream:         the densities beyond the two ends.
 * Out:      numbers, numbers_len:         the cells, each once, the one with the smallest change in size first and cells
 *                                         with changes of one size in their order; numbered from 1; numbers_len is n.
 *           changes, changes_len:         the change of the cell at the same place of numbers, above 0 for more units and
 *                                         below 0 for fewer, from -jam to jam and never 0; changes_len is n.
 *                                         cells[numbers[k] - 1] + changes[k] is the density that alters the word.
 *           place:                        0, or the place of the refusal.
 * Refusals: 1 to 5, 8 to 11; 8 where either output has the wrong length.
 */
uint32_t welgadou_nearest(uint32_t divisor, uint32_t free, uint32_t wave, uint32_t jam, uint32_t critical,
                          const uint32_t *cells, size_t cells_len,
                          uint32_t upstream, uint32_t downstream,
                          uint32_t *numbers, size_t numbers_len,
                          int32_t *changes, size_t changes_len,
                          uint32_t *place);

#ifdef __cplusplus
}
#endif

#endif
