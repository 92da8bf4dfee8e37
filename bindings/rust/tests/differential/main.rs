//! The library against an independent reading of the scope document and of the requests after it, call by call, on many
//! inputs: results, refusal numbers and places, and buffers that keep their contents after a refusal. Each call is made
//! twice, as C makes it and by this crate's safe function.
//!
//! A failure prints its seed. `WELGADOU_SEED=n cargo test --release` then makes that one case of each call again;
//! `WELGADOU_CASES=n` makes n times as many cases.

mod exact;
mod random;
mod raw;
mod reference;

use exact::Whole;
use random::Random;
use reference::{Forecast, Ranking, Reading, Refused, Settled, Station, Units};
use std::collections::BTreeMap;
use std::env;
use std::thread;
use welgadou::{Fit, Moved, Refusal, Road, StationReading, Totals, OPEN};

fn road_of([divisor, free, wave, jam, critical]: [u32; 5]) -> Road {
    Road { divisor, free, wave, jam, critical }
}

fn totals_of([entered, left]: Units) -> Totals {
    Totals { entered, left }
}

fn pair_of(refusal: Refusal) -> Refused {
    (refusal.number, refusal.place)
}

fn own_of(answer: Result<Moved, Refusal>) -> Result<Units, Refused> {
    answer.map(|moved| [moved.entered, moved.left]).map_err(pair_of)
}

/// The caps of a road of so many cells without roadworks.
fn open(n: usize) -> Vec<u32> {
    vec![OPEN; n + 1]
}

/// The crate and the archive are of one version.
#[test]
fn one_version() {
    let version = welgadou::version();
    assert_eq!(format!("{}.{}.{}", version / 10_000, version / 100 % 100, version % 100), env!("CARGO_PKG_VERSION"));
}

/// Prints the seed of a case that panics.
struct Case(&'static str, u64);

impl Drop for Case {
    fn drop(&mut self) {
        if thread::panicking() {
            eprintln!("the case of {} with WELGADOU_SEED={} fails", self.0, self.1);
        }
    }
}

/// What a case was: the number of its answer, 0 for accepted, and a word on an accepted one.
type Kind = (u32, &'static str);

/// A generator for a case of a call: the calls do not share their inputs.
fn generator(call: &str, seed: u64) -> Random {
    Random::new(call.bytes().fold(seed, |mixed, byte| Random::new(mixed ^ u64::from(byte)).bits()))
}

/// Runs a case for many seeds. Every number that the call can answer must have come up, and every word, so that nothing
/// goes untried.
fn cases(call: &'static str, times: u64, numbers: &[u32], words: &[&'static str], case: impl Fn(&mut Random) -> Kind) {
    let number_of = |name| env::var(name).ok().map(|text| text.parse::<u64>().expect("a whole number"));
    if let Some(seed) = number_of("WELGADOU_SEED") {
        let _case = Case(call, seed);
        case(&mut generator(call, seed));
        return;
    }
    let times = times * number_of("WELGADOU_CASES").unwrap_or(1);
    let mut seen: BTreeMap<Kind, u64> = BTreeMap::new();
    for seed in 0..times {
        let _case = Case(call, seed);
        *seen.entry(case(&mut generator(call, seed))).or_default() += 1;
    }
    let tally: Vec<String> = seen.iter().map(|((number, word), times)| format!("{number}{word} {times}")).collect();
    println!("{call}: {times} cases; by number: {}", tally.join(", "));
    let refused = numbers.iter().map(|&number| (number, ""));
    let expected: Vec<Kind> = words.iter().map(|&word| (0, word)).chain(refused).collect();
    assert!(seen.keys().all(|kind| expected.contains(kind)), "{call}: an unexpected kind");
    assert!(expected.iter().all(|kind| seen.contains_key(kind)), "{call}: a kind that never came up");
}

/// The kind of an answer, with the word that an accepted one gets.
fn kind_of<V>(answer: &Result<V, Refused>, word: impl FnOnce(&V) -> &'static str) -> Kind {
    match answer {
        Ok(values) => (0, word(values)),
        Err(refused) => (refused.0, ""),
    }
}

/// How many faults to put into an input: mostly none, sometimes several, so that the first number must be found.
fn faults(g: &mut Random) -> usize {
    g.of(&[0, 0, 0, 0, 0, 1, 1, 1, 2, 3])
}

// Level 1.

/// What a forecast answers, the same as C makes it, by the safe function and by the reference.
#[allow(clippy::too_many_arguments)]
fn forecast(
    road: [u32; 5],
    cells: &[u32],
    up: &[u32],
    down: &[u32],
    horizon: u32,
    caps: &[u32],
    totals: Units,
    out: usize,
) -> Result<Forecast, Refused> {
    let expected = reference::forecast(road, cells, up, down, horizon, caps, totals, out);
    let input = || {
        let lists = format!("cells {cells:?}, up {up:?}, down {down:?}, caps {caps:?}");
        format!("road {road:?}, {lists}, horizon {horizon}, totals {totals:?}, out {out}")
    };

    let as_c = expected.clone().map(|done| (done.cells, done.own, done.totals));
    assert_eq!(raw::forecast(road, cells, up, down, horizon, caps, totals, out), as_c, "{}", input());

    let before = (vec![0x5a5a_5a5a; out], totals_of(totals));
    let mut outputs = before.clone();
    let by_rust = welgadou::forecast(&road_of(road), cells, up, down, horizon, caps, &mut outputs.1, &mut outputs.0);
    assert_eq!(own_of(by_rust), expected.clone().map(|done| done.own), "{}", input());
    let after = expected.clone().map_or(before, |done| (done.cells, totals_of(done.totals)));
    assert_eq!(outputs, after, "{}", input());
    expected
}

fn one_forecast(g: &mut Random, work: usize) -> Kind {
    let mut road = random::good_road(g);
    let n = random::size(g);
    let longest = (work / n).clamp(1, 1440);
    let mut horizon = match g.below(6) {
        0 => g.from(0, 2),
        1 => longest as u32,
        _ => g.below(longest + 1) as u32,
    };
    let mut cells = random::densities(g, &road, n);
    let mut up = random::densities(g, &road, horizon as usize);
    let mut down = random::densities(g, &road, horizon as usize);
    let first_end = |ends: &[u32]| ends.first().copied().unwrap_or(0);
    let mut caps = random::caps(g, &road, &cells, first_end(&up), first_end(&down));
    let mut out = n;
    let good = road;
    for _ in 0..faults(g) {
        match g.below(10) {
            0 => random::damage_road(g, &mut road),
            1 => {
                let length = g.of(&[0, 0, 257, 258, 300, 1000, 70_000]);
                random::resize(g, &mut cells, length);
                if g.one_in(2) {
                    out = length;
                }
            }
            2 => {
                horizon = g.of(&[1441, 1442, 4096, 1 << 31, u32::MAX]);
                if horizon <= 4096 && g.one_in(2) {
                    random::resize(g, &mut up, horizon as usize);
                    random::resize(g, &mut down, horizon as usize);
                }
            }
            3 => {
                let length = random::other_length(g, up.len());
                random::resize(g, &mut up, length);
            }
            4 => {
                let length = random::other_length(g, down.len());
                random::resize(g, &mut down, length);
            }
            5 => out = random::other_length(g, out),
            6 => random::damage_values(g, &good, &mut cells),
            7 => random::damage_values(g, &good, &mut up),
            8 => random::damage_values(g, &good, &mut down),
            _ => {
                let length = random::other_length(g, caps.len());
                random::resize(g, &mut caps, length);
            }
        }
    }
    // With a fault there are no units of its own, and a full total is mostly the largest: the earlier check must win.
    let own_from_0 = reference::forecast(road, &cells, &up, &down, horizon, &caps, [0, 0], out);
    let totals = random::totals(g, own_from_0.map_or([0, 0], |done| done.own));
    let answer = forecast(road, &cells, &up, &down, horizon, &caps, totals, out);
    kind_of(&answer, |done| match (done.totals.contains(&u64::MAX), done.cells == cells) {
        (true, _) => " with a full total",
        (false, true) => " as before",
        (false, false) => " changed",
    })
}

const FORECAST: [u32; 13] = [1, 2, 3, 4, 5, 6, 7, 8, 20, 9, 10, 11, 19];
const FORECAST_WORDS: [&str; 3] = [" as before", " changed", " with a full total"];

#[test]
fn forecasts() {
    cases("forecast", 40_000, &FORECAST, &FORECAST_WORDS, |g| one_forecast(g, 1_000));
}

#[test]
fn long_forecasts() {
    cases("forecast, long", 400, &FORECAST, &FORECAST_WORDS, |g| one_forecast(g, 256 * 1440));
}

/// A short forecast without faults. Of its totals those that `full` names are about full, the others have room for its
/// units, so that 19 can come of the named ones alone.
fn one_full_total(g: &mut Random, full: [bool; 2]) -> Kind {
    let road = random::good_road(g);
    let (n, steps) = (1 + g.below(8), g.below(13));
    let cells = random::densities(g, &road, n);
    let (up, down) = (random::densities(g, &road, steps), random::densities(g, &road, steps));
    let caps = random::caps(g, &road, &cells, road[4], road[4]);
    let answer_from = |totals| forecast(road, &cells, &up, &down, steps as u32, &caps, totals, n);

    let own = answer_from([0, 0]).expect("accepted").own;
    let mut total = |i: usize| match full[i] {
        true => random::full_total(g, own[i]),
        false => random::total_with_room(g, own[i]),
    };
    let answer = answer_from([total(0), total(1)]);
    kind_of(&answer, |done| {
        let largest = (0..2).filter(|&i| full[i] && done.totals[i] == u64::MAX);
        match largest.map(|i| own[i]).max() {
            None => " below the largest",
            Some(0) => " the largest before",
            Some(_) => " to the largest",
        }
    })
}

#[test]
fn full_totals() {
    let words = [" below the largest", " the largest before", " to the largest"];
    cases("total entered full", 20_000, &[19], &words, |g| one_full_total(g, [true, false]));
    cases("total left full", 20_000, &[19], &words, |g| one_full_total(g, [false, true]));
    cases("both totals full", 20_000, &[19], &words, |g| one_full_total(g, [true, true]));
}

/// Single faces about half a unit: the face before the one cell of a forecast over one step.
#[test]
fn faces() {
    cases("face", 200_000, &[], &[" whole", " below a half", " a half", " above a half"], |g| {
        let road = random::good_road(g);
        let [_, free, wave, jam, _] = road;
        let (a, b) = (random::near_half(g, &road, free), jam - random::near_half(g, &road, wave));
        let r = reference::Road::new(road);
        let flow = reference::numerator(&r, i128::from(a), i128::from(b));
        let (_, [entered, _], _) = raw::forecast(road, &[b], &[a], &[jam], 1, &open(1), [0, 0], 1).expect("accepted");
        assert_eq!(i128::from(entered), reference::units(&r, flow), "road {road:?}, the units of ({a}, {b})");
        let twice = 2 * (flow % r.d);
        let kinds = [(twice == 0, " whole"), (twice < r.d, " below a half"), (twice == r.d, " a half")];
        (0, kinds.iter().find(|kind| kind.0).map_or(" above a half", |kind| kind.1))
    });
}

/// A single face with a cap, before the cells, after them and between the two that there are: the neighbouring faces have
/// other caps, which must not count.
#[test]
fn capped_faces() {
    let words = [" closed", " below the flow", " the flow", " above the flow", " from 2^31 on", " open"];
    cases("capped face", 100_000, &[], &words, |g| {
        let road = random::good_road(g);
        let (a, b) = (random::density(g, &road), random::density(g, &road));
        let cap = random::cap(g, &road, a, b);
        let others = [(); 2].map(|()| g.of(&[0, OPEN, cap.saturating_sub(1), cap.saturating_add(1)]));
        let r = reference::Road::new(road);
        let flow = reference::units(&r, reference::numerator(&r, i128::from(a), i128::from(b)));
        let moved = flow.min(i128::from(cap));
        let input = || format!("road {road:?}, the face ({a}, {b}) with cap {cap} beside {others:?}");

        let one_step = |cells: &[u32], up, down, caps: &[u32]| {
            let (cells, own, _) = raw::forecast(road, cells, &[up], &[down], 1, caps, [0, 0], cells.len())?;
            Ok::<_, Refused>((cells, own.map(i128::from)))
        };
        let (_, [entered, _]) = one_step(&[b], a, 0, &[cap, others[0]]).expect("accepted");
        assert_eq!(entered, moved, "first: {}", input());
        let (_, [_, left]) = one_step(&[a], 0, b, &[others[0], cap]).expect("accepted");
        assert_eq!(left, moved, "last: {}", input());
        let (cells, [entered, left]) = one_step(&[a, b], 0, 0, &[others[0], cap, others[1]]).expect("accepted");
        assert_eq!(i128::from(a) + entered - i128::from(cells[0]), moved, "between: {}", input());
        assert_eq!(i128::from(cells[1]) + left - i128::from(b), moved, "between: {}", input());

        let kinds = [
            (cap == 0, " closed"),
            (cap == OPEN, " open"),
            (cap >= 1 << 31, " from 2^31 on"),
            (i128::from(cap) < flow, " below the flow"),
            (i128::from(cap) == flow, " the flow"),
        ];
        (0, kinds.iter().find(|kind| kind.0).map_or(" above the flow", |kind| kind.1))
    });
}

/// The cells after a forecast that has the one pair of ends in every step, from totals of 0.
fn full_forecast(
    road: [u32; 5],
    cells: &[u32],
    up: u32,
    down: u32,
    horizon: u32,
    caps: &[u32],
) -> Result<Vec<u32>, Refused> {
    let [up, down] = [up, down].map(|end| vec![end; horizon as usize]);
    let (mut totals, mut out) = (Totals::default(), vec![0x5a5a_5a5a; cells.len()]);
    let answer = welgadou::forecast(&road_of(road), cells, &up, &down, horizon, caps, &mut totals, &mut out);
    own_of(answer).map(|_| out)
}

/// What a settling run answers, the same as C makes it, by the safe function and by the reference. Settled or not, its
/// cells are those of the full forecast.
fn settle(
    road: [u32; 5],
    cells: &[u32],
    up: u32,
    down: u32,
    horizon: u32,
    caps: &[u32],
    out: usize,
) -> Result<Settled, Refused> {
    let expected = reference::settle(road, cells, up, down, horizon, caps, out);
    let input = || {
        let lists = format!("cells {cells:?}, caps {caps:?}");
        format!("road {road:?}, {lists}, up {up}, down {down}, horizon {horizon}, out {out}")
    };

    let by_c = raw::settle(road, cells, up, down, horizon, caps, out).map(|(cells, settled, steps)| {
        assert!(settled <= 1, "{}", input());
        Settled { cells, settled: settled == 1, steps }
    });
    assert_eq!(by_c, expected, "{}", input());

    let mut buffer = vec![0x5a5a_5a5a; out];
    let by_rust = welgadou::settle(&road_of(road), cells, up, down, horizon, caps, &mut buffer);
    match &expected {
        Ok(done) => {
            let report = welgadou::Settlement { settled: done.settled, steps: done.steps };
            assert_eq!(by_rust, Ok(report), "{}", input());
            assert_eq!(buffer, done.cells, "{}", input());
            assert_eq!(full_forecast(road, cells, up, down, horizon, caps), Ok(buffer), "{}", input());
        }
        Err(refused) => {
            assert_eq!(by_rust.map_err(pair_of), Err(*refused), "{}", input());
            assert!(buffer.iter().all(|&x| x == 0x5a5a_5a5a), "{}", input());
        }
    }
    expected
}

/// Whether one of so many steps, none of them still, keeps the sum of the cells: a look at it goes on past the two ends.
fn keeps_a_sum(road: [u32; 5], cells: &[u32], up: u32, down: u32, caps: &[u32], steps: u32) -> bool {
    let mut x = cells.to_vec();
    (0..steps).any(|_| {
        let (next, own, _) = raw::forecast(road, &x, &[up], &[down], 1, caps, [0, 0], x.len()).expect("accepted");
        x = next;
        own[0] == own[1]
    })
}

fn one_settle(g: &mut Random, work: usize) -> Kind {
    let mut road = random::good_road(g);
    let n = random::size(g);
    let longest = (work / n).clamp(1, 1440);
    let mut horizon = match g.below(6) {
        0 => g.from(0, 2),
        1 => longest as u32,
        _ => g.below(longest + 1) as u32,
    };
    let mut cells = random::densities(g, &road, n);
    let (mut up, mut down) = (random::density(g, &road), random::density(g, &road));
    let mut caps = random::caps(g, &road, &cells, up, down);
    let mut out = n;
    let good = road;
    for _ in 0..faults(g) {
        match g.below(8) {
            0 => random::damage_road(g, &mut road),
            1 => {
                let length = g.of(&[0, 0, 257, 258, 300, 1000, 70_000]);
                random::resize(g, &mut cells, length);
                if g.one_in(2) {
                    out = length;
                }
            }
            2 => horizon = g.of(&[1441, 1442, 4096, 1 << 31, u32::MAX]),
            3 => out = random::other_length(g, out),
            4 => random::damage_values(g, &good, &mut cells),
            5 => up = random::above(g, &good),
            6 => down = random::above(g, &good),
            _ => {
                let length = random::other_length(g, caps.len());
                random::resize(g, &mut caps, length);
            }
        }
    }
    let answer = settle(road, &cells, up, down, horizon, &caps, out);
    kind_of(&answer, |done| {
        let sum_kept = keeps_a_sum(road, &cells, up, down, &caps, done.steps);
        match (done.settled, done.steps, sum_kept) {
            (true, 0, _) => " settled at once",
            (true, _, false) => " settled",
            (true, _, true) => " settled, sum kept before",
            (false, _, false) => " unsettled",
            (false, _, true) => " unsettled, sum kept",
        }
    })
}

const SETTLE: [u32; 11] = [1, 2, 3, 4, 5, 6, 8, 20, 9, 10, 11];
const SETTLE_WORDS: [&str; 5] =
    [" settled at once", " settled", " settled, sum kept before", " unsettled", " unsettled, sum kept"];

#[test]
fn settling_runs() {
    cases("settle", 40_000, &SETTLE, &SETTLE_WORDS, |g| one_settle(g, 2_000));
}

#[test]
fn long_settling_runs() {
    cases("settle, long", 300, &SETTLE, &SETTLE_WORDS, |g| one_settle(g, 256 * 1440));
}

// Level 2.

/// Road, cells and ends.
type State = ([u32; 5], Vec<u32>, u32, u32);

fn good_state(g: &mut Random, road: [u32; 5], n: usize) -> State {
    let cells = random::densities(g, &road, n);
    (road, cells, random::density(g, &road), random::density(g, &road))
}

/// The same with faults put into it, mostly none.
fn with_faults(g: &mut Random, (good, mut cells, mut up, mut down): State) -> State {
    let mut road = good;
    for _ in 0..faults(g) {
        match g.below(6) {
            0 => random::damage_road(g, &mut road),
            1 => {
                let length = g.of(&[0, 0, 257, 258, 300, 1000, 70_000]);
                random::resize(g, &mut cells, length);
            }
            2 | 3 => random::damage_values(g, &good, &mut cells),
            4 => up = random::above(g, &good),
            _ => down = random::above(g, &good),
        }
    }
    (road, cells, up, down)
}

/// A state for the calls of Level 2, with its faults.
fn state(g: &mut Random) -> State {
    let road = random::good_road(g);
    let n = random::size(g);
    let good = good_state(g, road, n);
    with_faults(g, good)
}

/// What a reading answers: the same from C, from the safe function and from the reference. Queued is not counted by
/// modes, yet keeps to them: a cell in mode 1, 2 or 6 is above critical, one in mode 3, 4 or 7 is not, and one in mode 5
/// may be either.
fn read(road: [u32; 5], cells: &[u32], up: u32, down: u32, letters: usize, modes: usize) -> Result<Reading, Refused> {
    let expected = reference::read(road, cells, up, down, letters, modes);
    let input = || format!("road {road:?}, cells {cells:?}, up {up}, down {down}, outputs {letters}, {modes}");

    let by_c = raw::read(road, cells, up, down, letters, modes).map(|(letters, modes, counts, queued)| {
        let counts = counts.try_into().expect("seven counts");
        Reading { letters, modes, counts, queued }
    });
    assert_eq!(by_c, expected, "{}", input());

    let (mut letters, mut modes) = (vec![0x5a; letters], vec![0x5a; modes]);
    let by_rust = welgadou::read(&road_of(road), cells, up, down, &mut letters, &mut modes);
    match &expected {
        Ok(reading) => {
            let counts = welgadou::Counts { modes: reading.counts, queued: reading.queued };
            assert_eq!(by_rust, Ok(counts), "{}", input());
            assert_eq!((letters, modes), (reading.letters.clone(), reading.modes.clone()), "{}", input());
            assert_eq!(reading.counts.iter().sum::<u32>() as usize, cells.len(), "{}", input());
            let [m1, m2, _, _, m5, m6, _] = counts.modes;
            assert!(m1 + m2 + m6 <= counts.queued && counts.queued <= m1 + m2 + m5 + m6, "{counts:?}, {}", input());
        }
        Err(refused) => {
            assert_eq!(by_rust.map_err(pair_of), Err(*refused), "{}", input());
            assert!(letters.iter().chain(&modes).all(|&x| x == 0x5a), "{}", input());
        }
    }
    expected
}

/// Both sides of the border of queued cells have words of their own: a cell at critical, and one that is just above.
#[test]
fn readings() {
    let words = [" free", " free with one at critical", " queued", " queued with one just above"];
    cases("read", 100_000, &[1, 2, 3, 4, 5, 8, 9, 10, 11], &words, |g| {
        let (road, cells, up, down) = state(g);
        let (mut letters, mut modes) = (cells.len() + 1, cells.len());
        if g.one_in(8) {
            letters = random::other_length(g, letters);
        }
        if g.one_in(8) {
            modes = random::other_length(g, modes);
        }
        let answer = read(road, &cells, up, down, letters, modes);
        kind_of(&answer, |reading| {
            let [_, _, _, _, critical] = road;
            match reading.queued {
                0 => words[usize::from(cells.contains(&critical))],
                _ => words[2 + usize::from(cells.contains(&(critical + 1)))],
            }
        })
    });
}

#[test]
fn fits() {
    cases("fit", 100_000, &[1, 2, 3, 4, 5, 9, 10, 11, 12], &[" holds", " fails at face 0", " fails"], |g| {
        let (road, cells, up, down) = state(g);
        let word = random::word(g, &road, &cells, up, down);
        let expected = reference::fit(road, &cells, up, down, &word);
        let input = || format!("road {road:?}, cells {cells:?}, up {up}, down {down}, word {word:?}");

        let as_c = expected.map(|face| face.map_or((1, 0), |face| (0, face)));
        assert_eq!(raw::fit(road, &cells, up, down, &word), as_c, "{}", input());

        let as_rust = expected.map(|face| face.map_or(Fit::Holds, Fit::FailsAt));
        let by_rust = welgadou::fit(&road_of(road), &cells, up, down, &word).map_err(pair_of);
        assert_eq!(by_rust, as_rust, "{}", input());
        kind_of(&expected, |face| match face {
            None => " holds",
            Some(0) => " fails at face 0",
            Some(_) => " fails",
        })
    });
}

#[test]
fn row_predictions() {
    cases("rows", 100_000, &[1, 2, 3, 4, 5, 8, 9, 10, 11, 12], &[" negative", " not negative"], |g| {
        let (road, cells, up, down) = state(g);
        let word = random::word(g, &road, &cells, up, down);
        let mut out = cells.len();
        if g.one_in(8) {
            out = random::other_length(g, out);
        }
        let expected = reference::rows(road, &cells, up, down, &word, out);
        let input = || format!("road {road:?}, cells {cells:?}, up {up}, down {down}, word {word:?}, out {out}");

        assert_eq!(raw::rows(road, &cells, up, down, &word, out), expected, "{}", input());

        let mut buffer = vec![0x5a5a_5a5a_5a5a; out];
        let by_rust = welgadou::rows(&road_of(road), &cells, up, down, &word, &mut buffer);
        match &expected {
            Ok(values) => {
                assert_eq!(by_rust, Ok(()), "{}", input());
                assert_eq!(&buffer, values, "{}", input());
            }
            Err(refused) => {
                assert_eq!(by_rust.map_err(pair_of), Err(*refused), "{}", input());
                assert!(buffer.iter().all(|&x| x == 0x5a5a_5a5a_5a5a), "{}", input());
            }
        }
        kind_of(&expected, |values| if values.iter().any(|&x| x < 0) { " negative" } else { " not negative" })
    });
}

/// The cells, counted from 0, of which neither face's numerator exceeds its cap × D.
fn uncapped(road: [u32; 5], cells: &[u32], up: u32, down: u32, caps: &[u32]) -> Vec<usize> {
    let r = reference::Road::new(road);
    let numerators = reference::numerators(&r, &reference::wide(cells), i128::from(up), i128::from(down));
    let within = |face: usize| numerators[face] <= i128::from(caps[face]) * r.d;
    (0..cells.len()).filter(|&i| within(i) && within(i + 1)).collect()
}

/// With its own word a state's rows are the exact step, and D times the rounded density is less than D away: with any caps
/// at each cell that has neither face's cap in the way, with open caps at every cell.
#[test]
fn own_rows_are_the_exact_step() {
    let words = [" open", " capped nowhere", " capped at some cells", " capped at all cells"];
    cases("own rows", 40_000, &[], &words, |g| {
        let road = random::good_road(g);
        let n = random::size(g);
        let cells = random::densities(g, &road, n);
        let (up, down) = (random::density(g, &road), random::density(g, &road));
        let caps = random::caps(g, &road, &cells, up, down);
        let (mut values, mut next) = (vec![0; n], vec![0; n]);
        let r = &road_of(road);
        let own = read(road, &cells, up, down, n + 1, n).expect("accepted");
        welgadou::rows(r, &cells, up, down, &own.letters, &mut values).expect("accepted");
        welgadou::forecast(r, &cells, &[up], &[down], 1, &caps, &mut Totals::default(), &mut next).expect("accepted");
        let (exact, _) = exact::run(road, &caps, &cells, &[up], &[down]);
        let promised = uncapped(road, &cells, up, down, &caps);
        for &i in &promised {
            let value = u32::try_from(values[i]).expect("an own row is no density times the divisor");
            assert_eq!(Whole::new(value), exact[i], "cell {} of {cells:?}, caps {caps:?}", i + 1);
            let rounded = i64::from(next[i]) * i64::from(road[0]);
            assert!((rounded - values[i]).abs() < i64::from(road[0]), "cell {} of {cells:?}, caps {caps:?}", i + 1);
        }
        if caps == open(n) {
            assert_eq!(promised.len(), n, "road {road:?}, cells {cells:?}, up {up}, down {down}");
            return (0, " open");
        }
        (0, words[if promised.is_empty() { 3 } else { 1 + usize::from(promised.len() < n) }])
    });
}

#[test]
fn candidates() {
    cases("candidate", 200_000, &[1, 2, 3, 4, 13, 14], &[" negative", " not negative"], |g| {
        let mut road = random::good_road(g);
        let mut estimates = [(); 3].map(|()| random::estimate(g, &road));
        let mut mode = g.from(1, 7);
        for _ in 0..faults(g) {
            match g.below(4) {
                0 => random::damage_road(g, &mut road),
                1 => mode = random::bad_mode(g),
                _ => {
                    let i = g.below(3);
                    estimates[i] = random::bad_estimate(g, &road);
                }
            }
        }
        let expected = reference::candidate(road, mode, estimates);
        let input = || format!("road {road:?}, mode {mode}, estimates {estimates:?}");
        assert_eq!(raw::candidate(road, mode, estimates).map(f64::to_bits), expected.map(f64::to_bits), "{}", input());

        // Only C can pass a mode that a byte does not hold.
        if let Ok(byte) = u8::try_from(mode) {
            let by_rust = welgadou::candidate(&road_of(road), byte, estimates[0], estimates[1], estimates[2]);
            assert_eq!(by_rust.map(f64::to_bits).map_err(pair_of), expected.map(f64::to_bits), "{}", input());
        }

        if let Ok(value) = expected {
            assert!(value != 0.0 || value.is_sign_positive(), "-0.0: {}", input());
            if estimates.iter().all(|x| x.fract() == 0.0) {
                let whole = reference::whole_candidate(road, mode, estimates.map(|x| x as i128));
                assert_eq!(value as i128, whole, "{}", input());
                assert_eq!(value.fract(), 0.0, "{}", input());
            }
        }
        kind_of(&expected, |value| if *value < 0.0 { " negative" } else { " not negative" })
    });
}

/// Every byte as a mode, and larger numbers, with a mode in their lowest byte or not.
#[test]
fn every_mode() {
    for road in random::CORNERS {
        let larger = (8..32).flat_map(|bit| (0..=8).map(move |low| (1 << bit) + low));
        for mode in (0..=255).chain(larger).chain([u32::MAX]) {
            let expected = reference::candidate(road, mode, [1.0, 0.5, 2.0]);
            assert_eq!(raw::candidate(road, mode, [1.0, 0.5, 2.0]), expected, "road {road:?}, mode {mode}");
        }
    }
}

#[test]
fn word_counts() {
    for cells in (0..=45).chain([100, 256, 1 << 31, u32::MAX - 1, u32::MAX]) {
        let expected = reference::count(cells);
        assert_eq!(raw::count(cells), expected, "{cells} cells");
        assert_eq!(welgadou::count(cells).map_err(pair_of), expected, "{cells} cells");
    }
    for cells in 0..=11 {
        let words = reference::legal_words(cells).len() as u64;
        assert_eq!(welgadou::count(cells), Ok(words), "{cells} cells, one by one");
    }
    println!("count: 51 numbers of cells, the first 12 also word by word");
}

/// From 1 cell on, every legal word is the word of some state: a state is made for each, and read.
#[test]
fn every_legal_word_occurs() {
    use reference::{L, W};
    let mut tried = 0;
    for road in random::CORNERS {
        let [_, _, _, jam, critical] = road;
        for n in 1..=6 {
            for word in reference::legal_words(n as u32) {
                let cell = |before: u8, after: u8| match (before, after) {
                    (W, _) | (_, L) => jam,
                    (_, W) => critical,
                    _ => 0,
                };
                let cells: Vec<u32> = word.windows(2).map(|pair| cell(pair[0], pair[1])).collect();
                let up = [critical, jam, 0][usize::from(word[0])];
                let down = if word[n] == W { jam } else { 0 };
                let own = read(road, &cells, up, down, n + 1, n).expect("accepted");
                assert_eq!(own.letters, word, "road {road:?}, cells {cells:?}, up {up}, down {down}");
                tried += 1;
            }
        }
    }
    println!("legal words found as states: {tried}");
}

// Level 3.

/// What a station call answers, to the bit the same as C makes it, by the safe function and by the reference. An estimate
/// that comes back is accepted in each of a candidate's three places.
fn station(road: [u32; 5], reading: Station) -> Result<f64, Refused> {
    let expected = reference::station(road, reading);
    let input = || format!("road {road:?}, {reading:?}");
    let (by_c, given) = match reading {
        Station::Density(density) => (raw::station_density(road, density), StationReading::Density(density)),
        Station::FlowAndSpeed(flow, speed) => {
            (raw::station_flow(road, flow, speed), StationReading::FlowAndSpeed { flow, speed })
        }
        Station::Speed(speed) => (raw::station_speed(road, speed), StationReading::Speed(speed)),
    };
    assert_eq!(by_c.map(f64::to_bits), expected.map(f64::to_bits), "{}", input());

    let by_rust = welgadou::station(&road_of(road), given);
    assert_eq!(by_rust.map(f64::to_bits).map_err(pair_of), expected.map(f64::to_bits), "{}", input());

    if let Ok(x) = by_c {
        for mode in 1..=7 {
            for estimates in [[x, 0.0, 0.0], [0.0, x, 0.0], [0.0, 0.0, x], [x, x, x]] {
                assert!(raw::candidate(road, mode, estimates).is_ok(), "{}, candidate {estimates:?}", input());
            }
        }
    }
    expected
}

fn one_station(g: &mut Random, given: impl Fn(&mut Random, &[u32; 5]) -> Station) -> Kind {
    let mut road = random::good_road(g);
    let mut reading = given(g, &road);
    for _ in 0..faults(g) {
        match g.below(3) {
            0 => random::damage_road(g, &mut road),
            _ => random::damage_station(g, &road, &mut reading),
        }
    }
    let [_, _, _, jam, critical] = road.map(f64::from);
    kind_of(&station(road, reading), |&x| {
        if x == 0.0 {
            [" zero", " minus zero"][usize::from(x.is_sign_negative())]
        } else if x < critical {
            " free"
        } else if x == critical {
            " critical"
        } else if x < jam {
            " queued"
        } else {
            " jam"
        }
    })
}

/// Each kind of station, with every number that comes up for it: 17 is for a lone speed, which stands for a density from
/// critical to jam and so never comes to 18.
#[test]
fn stations() {
    let words = [" minus zero", " zero", " free", " critical", " queued", " jam"];
    cases("station, density", 100_000, &[1, 2, 3, 4, 16, 18], &words, |g| one_station(g, random::station_density));
    cases("station, flow", 100_000, &[1, 2, 3, 4, 16, 18], &words, |g| one_station(g, random::station_flow));
    cases("station, speed", 100_000, &[1, 2, 3, 4, 16, 17], &words[3..], |g| one_station(g, random::station_speed));
}

/// How near the next mode is to each cell, the same as C makes it, by the safe function and by the reference.
fn nearest(
    road: [u32; 5],
    cells: &[u32],
    up: u32,
    down: u32,
    numbers: usize,
    changes: usize,
) -> Result<Ranking, Refused> {
    let expected = reference::nearest(road, cells, up, down, numbers, changes);
    let input = || format!("road {road:?}, cells {cells:?}, up {up}, down {down}, outputs {numbers}, {changes}");
    assert_eq!(raw::nearest(road, cells, up, down, numbers, changes), expected, "{}", input());

    let before = (vec![0x5a5a_5a5a; numbers], vec![0x5a5a_5a5a; changes]);
    let mut outputs = before.clone();
    let by_rust = welgadou::nearest(&road_of(road), cells, up, down, &mut outputs.0, &mut outputs.1);
    assert_eq!(by_rust.map_err(pair_of), expected.clone().map(|_| ()), "{}", input());
    assert_eq!(outputs, expected.clone().unwrap_or(before), "{}", input());
    expected
}

/// The same of an accepted state, and by the reference that tries every change.
fn nearest_by_trying(road: [u32; 5], cells: &[u32], up: u32, down: u32) -> Ranking {
    let ranking = nearest(road, cells, up, down, cells.len(), cells.len()).expect("accepted");
    let tried = reference::nearest_by_trying(road, cells, up, down);
    assert_eq!(ranking, tried, "road {road:?}, cells {cells:?}, up {up}, down {down}");
    ranking
}

/// A state without faults, every other time with cells moved to where a letter changes.
fn state_at_borders(g: &mut Random, road: [u32; 5], n: usize) -> State {
    let (_, mut cells, up, down) = good_state(g, road, n);
    if g.one_in(2) {
        random::to_borders(g, &road, &mut cells, up, down);
    }
    (road, cells, up, down)
}

const WAYS: [&str; 3] = [" up", " down", " down though up would do"];

/// Which way the first change of a ranking goes.
fn first_way(road: [u32; 5], cells: &[u32], up: u32, down: u32, (numbers, changes): &Ranking) -> &'static str {
    let (r, x) = (reference::Road::new(road), reference::wide(cells));
    let (i, change) = (numbers[0] as usize - 1, i128::from(changes[0]));
    if change > 0 {
        WAYS[0]
    } else if !reference::alters(&r, &x, i128::from(up), i128::from(down), i, -change) {
        WAYS[1]
    } else {
        WAYS[2]
    }
}

#[test]
fn nearest_modes() {
    cases("nearest", 80_000, &[1, 2, 3, 4, 5, 8, 9, 10, 11], &WAYS, |g| {
        let road = if g.one_in(4) { random::small_road(g) } else { random::good_road(g) };
        let n = random::size(g);
        let good = state_at_borders(g, road, n);
        let (road, cells, up, down) = with_faults(g, good);
        let (mut numbers, mut changes) = (cells.len(), cells.len());
        if g.one_in(12) {
            numbers = random::other_length(g, numbers);
        }
        if g.one_in(12) {
            changes = random::other_length(g, changes);
        }
        let answer = nearest(road, &cells, up, down, numbers, changes);
        kind_of(&answer, |ranking| first_way(road, &cells, up, down, ranking))
    });
}

/// Every change tried: on small roads, now and then with many cells, and with few cells on roads of any size.
#[test]
fn nearest_modes_by_trying() {
    let one = |g: &mut Random, road, n| {
        let (road, cells, up, down) = state_at_borders(g, road, n);
        let ranking = nearest_by_trying(road, &cells, up, down);
        (0, first_way(road, &cells, up, down, &ranking))
    };
    cases("nearest, small jam", 40_000, &[], &WAYS, |g| {
        let road = random::small_road(g);
        let n = if g.one_in(1000) { random::size(g) } else { 1 + g.below(12) };
        one(g, road, n)
    });
    cases("nearest, any jam", 100, &[], &WAYS, |g| {
        let road = random::good_road(g);
        let n = 1 + g.below(3);
        one(g, road, n)
    });
}

/// Every change tried of every cell between every two neighbours, for each jam density up to 12 and each critical one.
/// These two fix how the speeds stand to each other, and no more of the speeds and the divisor enters into a letter.
#[test]
fn nearest_modes_of_every_small_state() {
    let mut tried = 0;
    for jam in 2..=12u32 {
        for critical in 1..jam {
            let road = [jam, jam - critical, critical, jam, critical];
            for code in 0..(jam + 1).pow(3) {
                let [up, own, down] = [0, 1, 2].map(|place| code / (jam + 1).pow(place) % (jam + 1));
                nearest_by_trying(road, &[own], up, down);
                tried += 1;
            }
        }
    }
    println!("nearest: {tried} small states of one cell, all that there are");
}

// Demand 3 and what follows.

/// With open caps, with caps that change nothing, and with caps that bind.
#[test]
fn demand_3() {
    let words = [" exact", " exact, capped", " off by rounding", " off by rounding, capped"];
    cases("demand 3", 40_000, &[], &words, |g| {
        let road = random::good_road(g);
        let [divisor, _, _, jam, _] = road;
        let (n, steps) = (1 + g.below(8), g.below(13));
        let cells = random::densities(g, &road, n);
        let (up, down) = (random::densities(g, &road, steps), random::densities(g, &road, steps));
        let caps = random::caps(g, &road, &cells, road[4], road[4]);
        // The balance is that of the forecast's own units, whatever the totals.
        let mut totals = Totals { entered: g.bits() / 2, left: g.bits() / 2 };
        let mut out = vec![u32::MAX; n];
        let answer = welgadou::forecast(&road_of(road), &cells, &up, &down, steps as u32, &caps, &mut totals, &mut out);
        let moved = answer.expect("accepted");
        let input = || format!("road {road:?}, cells {cells:?}, up {up:?}, down {down:?}, caps {caps:?}");

        assert!(out.iter().all(|&x| x <= jam), "{}", input());
        let sum = |list: &[u32]| list.iter().map(|&x| u64::from(x)).sum::<u64>();
        assert_eq!(sum(&cells) + moved.entered, sum(&out) + moved.left, "{}", input());

        let (exact, z) = exact::run(road, &caps, &cells, &up, &down);
        let mut distance = Whole::new(0);
        for i in 0..n {
            assert!(exact[i] <= z.times(jam), "{}", input());
            distance = distance.plus(&z.times(out[i]).distance(&exact[i]));
        }
        let bound = z.times((n * steps) as u32).times(divisor - 1);
        assert!(distance.times(divisor) <= bound, "{}", input());
        let off = usize::from(distance != Whole::new(0));
        let capped = usize::from(exact != exact::run(road, &open(n), &cells, &up, &down).0);
        (0, words[2 * off + capped])
    });
}

/// A forecast of T steps is T forecasts of one step, each fed the last one's cells and totals, whichever list it steps in:
/// the output or, near the largest total, the working list. Where 19 refuses the whole, it refuses one of the steps.
#[test]
fn one_step_at_a_time() {
    cases("one step at a time", 20_000, &[19], &[" with room", " near the largest"], |g| {
        let road = random::good_road(g);
        let n = random::size(g);
        let longest = if g.one_in(20) { Road::horizon_ceiling() as usize / 4 } else { 40 };
        let steps = g.below(longest + 1);
        let start = random::densities(g, &road, n);
        let [up, down] = [(); 2].map(|()| random::densities(g, &road, steps));
        let caps = random::caps(g, &road, &start, road[4], road[4]);
        let whole_from = |totals| raw::forecast(road, &start, &up, &down, steps as u32, &caps, totals, n);
        let (_, own, _) = whole_from([0, 0]).expect("accepted");
        let totals = random::totals(g, own);

        let mut stepwise = Ok((start.clone(), [0, 0], totals));
        for (&u, &d) in up.iter().zip(&down) {
            stepwise = stepwise.and_then(|(cells, own, totals)| {
                let (cells, more, totals) = raw::forecast(road, &cells, &[u], &[d], 1, &caps, totals, n)?;
                Ok((cells, [own[0] + more[0], own[1] + more[1]], totals))
            });
        }
        let whole = whole_from(totals);
        let lists = || format!("cells {start:?}, up {up:?}, down {down:?}, caps {caps:?}");
        assert_eq!(whole, stepwise, "road {road:?}, {}, totals {totals:?}", lists());
        let most = steps as u64 * u64::from(Road::jam_ceiling());
        let room = totals.iter().all(|&total| u64::MAX - total >= most);
        kind_of(&whole, |_| if room { " with room" } else { " near the largest" })
    });
}

/// A chain of forecasts as a site makes it: one variable for the totals, which are both `begun` at first, the last
/// accepted call's cells, and caps that come and go. After every call, refused or not, the units at the beginning plus
/// those entered are the units on the road plus those left. Hands back the numbers of the refused calls, of which some
/// were damaged.
fn chain(g: &mut Random, road: [u32; 5], begun: u64) -> Vec<u32> {
    let units = |cells: &[u32], total: u64| cells.iter().map(|&x| u128::from(x)).sum::<u128>() + u128::from(total);
    let n = random::size(g);
    let start = random::densities(g, &road, n);
    let (mut cells, mut totals, mut refused) = (start.clone(), totals_of([begun, begun]), vec![]);
    for _ in 0..50 {
        let steps = g.from(0, Road::horizon_ceiling() / 8);
        let mut ends = [(); 2].map(|()| random::densities(g, &road, steps as usize));
        let mut caps = if g.one_in(2) { open(n) } else { random::caps(g, &road, &cells, road[4], road[4]) };
        match g.below(8) {
            side @ 0..=1 => random::damage_values(g, &road, &mut ends[side]),
            2 => ends[0].push(0),
            3 => caps.truncate(n),
            _ => {}
        }
        let [up, down] = &ends;
        let expected = reference::forecast(road, &cells, up, down, steps, &caps, [totals.entered, totals.left], n);

        let before = (cells.clone(), totals);
        let mut next = cells.clone();
        let answer = welgadou::forecast(&road_of(road), &cells, up, down, steps, &caps, &mut totals, &mut next);
        assert_eq!(own_of(answer), expected.map(|done| done.own), "road {road:?}, from {before:?}");
        if let Err(refusal) = answer {
            assert_eq!((&cells, &next, totals), (&before.0, &before.0, before.1), "road {road:?}, {refusal}");
            refused.push(refusal.number);
        }
        cells = next;
        assert_eq!(units(&start, totals.entered), units(&cells, totals.left), "road {road:?}, from {before:?}");
    }
    refused
}

/// From totals of 0 on a call is refused for a fault of its own, and never for its totals.
#[test]
fn year_after_year() {
    cases("chain of forecasts", 30, &[], &[" with refused calls"], |g| {
        let road = random::good_road(g);
        let refused = chain(g, road, 0);
        assert!(!refused.contains(&19), "road {road:?}");
        (0, if refused.is_empty() { "" } else { " with refused calls" })
    });
}

/// Totals that begin with room for some of what the chain moves: most chains fill them.
#[test]
fn year_after_year_until_full() {
    cases("chain that fills its totals", 60, &[19], &[" with room left"], |g| {
        let road = random::good_road(g);
        let [divisor, free, _, _, critical] = road.map(u64::from);
        let room = free * critical / divisor * u64::from(g.from(0, 2 * Road::horizon_ceiling()));
        match chain(g, road, u64::MAX - room).contains(&19) {
            true => (19, ""),
            false => (0, " with room left"),
        }
    });
}

// Fixed cases.

const ROAD_A: [u32; 5] = [5, 4, 1, 1000, 200];

/// The ceilings that document 01 names, but for the horizon's, which is document 02's.
#[test]
fn ceilings() {
    assert_eq!(Road::cells_ceiling(), 256);
    assert_eq!(Road::horizon_ceiling(), 1440);
    assert_eq!(Road::divisor_ceiling(), 4096);
    assert_eq!(Road::jam_ceiling(), 1_000_000);
    assert_eq!(Road::count_ceiling(), 40);
}

/// The corner roads are accepted, and the document's bad roads refused.
#[test]
fn roads() {
    for road in random::CORNERS {
        assert_eq!(raw::settle(road, &[0], 0, 0, 1, &open(1), 1), Ok((vec![0], 1, 0)), "{road:?}");
    }
    for (road, number) in
        [([5, 6, 1, 1000, 200], 2), ([5, 4, 1, 1000, 1000], 3), ([5, 4, 1, 1000, 201], 4), ([0, 4, 1, 1, 200], 1)]
    {
        assert_eq!(raw::settle(road, &[0], 0, 0, 1, &open(1), 1), Err((number, 0)), "{road:?}");
    }
}

/// The document's cases on road A, rounded as the request on rounding says.
#[test]
fn road_a() {
    let faces = [
        (200, 200, 2, 160),
        (200, 201, 0, 160),
        (201, 200, 1, 160),
        (100, 600, 2, 80),
        (100, 601, 0, 80),
        (0, 1000, 2, 0),
        (1, 1000, 0, 0),
    ];
    for (a, b, letter, units) in faces {
        let reading = read(ROAD_A, &[b], a, 0, 2, 1).expect("accepted");
        assert_eq!(reading.letters[0], letter, "the letter of ({a}, {b})");
        let (_, [entered, _], _) = raw::forecast(ROAD_A, &[b], &[a], &[0], 1, &open(1), [0, 0], 1).expect("accepted");
        assert_eq!(entered, units, "the units of ({a}, {b})");
    }
    let moved = |cells: &[u32], up: u32| {
        let n = cells.len();
        raw::forecast(ROAD_A, cells, &[up], &[0], 1, &open(n), [0, 0], n)
    };
    assert_eq!(moved(&[101], 0), Ok((vec![20], [0, 81], [0, 81])));
    let cells = [300, 150, 700];
    assert_eq!(moved(&cells, 100), Ok((vec![220, 250, 600], [80, 160], [80, 160])));
    let reading = read(ROAD_A, &cells, 100, 0, 4, 3).expect("accepted");
    assert_eq!((reading.letters, reading.modes), (vec![2, 1, 0, 1], vec![6, 3, 2]));
    assert_eq!((reading.counts, reading.queued), ([0, 1, 1, 0, 0, 1, 0], 2));
    assert_eq!(raw::rows(ROAD_A, &cells, 100, 0, &[2, 1, 0, 1], 3), Ok(vec![1100, 1250, 3000]));
    assert_eq!(raw::rows(ROAD_A, &[0], 0, 0, &[2, 0], 1), Ok(vec![-1000]));
    assert_eq!(raw::settle(ROAD_A, &[2], 0, 0, 9, &open(1), 1), Ok((vec![0], 1, 1)));
    for (cells, words) in [(0, 3), (1, 7), (2, 16), (5, 182), (10, 10426), (20, 34206521)] {
        assert_eq!(raw::count(cells), Ok(words));
    }
}

/// The request on queued cells, on road A: upstream end, cells, downstream end, modes and how many are queued. Its case is
/// first, then the two cells that it names, each by itself: counted by the modes 1, 2 and 3 the case has the same number,
/// and neither cell has.
#[test]
fn fixed_queued() {
    let accepted = [
        (100, vec![300, 150, 700], 0, vec![6, 3, 2], 2),
        (100, vec![300], 150, vec![6], 1),
        (300, vec![150], 700, vec![3], 0),
        (300, vec![200], 700, vec![3], 0),
        (100, vec![201], 150, vec![6], 1),
        (100, vec![200], 150, vec![7], 0),
        (100, vec![300], 700, vec![5], 1),
        (100, vec![150], 900, vec![5], 0),
        (0, vec![201, 201], 0, vec![5, 2], 2),
        (1000, vec![200, 200, 200], 1000, vec![4, 7, 5], 0),
    ];
    for (up, cells, down, modes, queued) in accepted {
        let reading = read(ROAD_A, &cells, up, down, cells.len() + 1, cells.len()).expect("accepted");
        assert_eq!((reading.modes, reading.queued), (modes, queued), "up {up}, cells {cells:?}, down {down}");
    }
}

/// The request on rounding, its case first: an exact half passes. The last line shows that not every road empties.
#[test]
fn fixed_halves() {
    let faces = [
        ([2, 1, 1, 2, 1], 1, 0, 1),
        ([2, 1, 1, 2, 1], 2, 0, 1),
        ([2, 1, 1, 12, 6], 1, 0, 1),
        ([2, 1, 1, 12, 6], 3, 0, 2),
        ([2, 1, 1, 12, 6], 5, 0, 3),
        (ROAD_A, 1, 0, 1),
        (ROAD_A, 2, 0, 2),
        (ROAD_A, 3, 0, 2),
        (ROAD_A, 4, 0, 3),
        (ROAD_A, 200, 997, 1),
        (ROAD_A, 200, 998, 0),
        ([2177, 13, 2177, 998_640, 992_712], 991_456, 0, 5920),
        ([1, 1, 1, 2, 1], 0, 0, 0),
        ([1, 1, 1, 2, 1], 1, 0, 1),
        ([1, 1, 1, 2, 1], 1, 2, 0),
        ([4096, 4096, 4096, 1_000_000, 500_000], 499_999, 0, 499_999),
    ];
    for (road, a, b, units) in faces {
        let (_, [entered, _], _) = raw::forecast(road, &[b], &[a], &[0], 1, &open(1), [0, 0], 1).expect("accepted");
        assert_eq!(entered, units, "road {road:?}, the units of ({a}, {b})");
    }
    let three = raw::forecast(ROAD_A, &[7, 2, 9], &[1], &[0], 1, &open(3), [0, 0], 3);
    assert_eq!(three, Ok((vec![2, 6, 4], [1, 7], [1, 7])));
    assert_eq!(raw::settle([4, 1, 1, 4, 2], &[1], 0, 0, 9, &open(1), 1), Ok((vec![1], 1, 0)));
}

/// The request on totals. On road A cell 101 takes 80 units from an end of 100, and lets 81 go to an end of 0.
#[test]
fn fixed_totals() {
    const LARGEST: u64 = 18_446_744_073_709_551_615;
    let accepted = [
        ([0, 0], [80, 81]),
        ([5000, 4000], [5080, 4081]),
        ([LARGEST - 80, 0], [LARGEST, 81]),
        ([0, LARGEST - 81], [80, LARGEST]),
        ([LARGEST - 80, LARGEST - 81], [LARGEST, LARGEST]),
    ];
    for (so_far, totals) in accepted {
        let done = Forecast { cells: vec![100], own: [80, 81], totals };
        assert_eq!(forecast(ROAD_A, &[101], &[100], &[0], 1, &open(1), so_far, 1), Ok(done), "from {so_far:?}");
    }
    let refused = [
        [LARGEST - 79, 0],
        [0, LARGEST - 80],
        [LARGEST - 79, LARGEST - 81],
        [LARGEST - 80, LARGEST - 80],
        [LARGEST, LARGEST],
    ];
    for so_far in refused {
        assert_eq!(forecast(ROAD_A, &[101], &[100], &[0], 1, &open(1), so_far, 1), Err((19, 0)), "from {so_far:?}");
    }

    // A full total stays as it is where no unit moves: over no end, over the other end alone, in no step.
    let (empty, full) = ([0, 0], [LARGEST, LARGEST]);
    let unmoved = [
        (0, vec![0], vec![0], full, Ok([0, 0])),
        (101, vec![], vec![], full, Ok([0, 0])),
        (101, vec![0], vec![0], [LARGEST, 0], Ok([0, 81])),
        (101, vec![0], vec![0], full, Err((19, 0))),
        (0, vec![100], vec![1000], [0, LARGEST], Ok([80, 0])),
        (0, vec![100], vec![1000], full, Err((19, 0))),
    ];
    for (cell, up, down, so_far, own) in unmoved {
        let answer = forecast(ROAD_A, &[cell], &up, &down, up.len() as u32, &open(1), so_far, 1);
        assert_eq!(answer.map(|done| done.own), own, "cell {cell}, up {up:?}, down {down:?}, from {so_far:?}");
    }

    // Every other fault is found before full totals.
    let faulty = [
        ([0, 4, 1, 1000, 200], vec![101], vec![100], vec![0], 1, 1, (1, 0)),
        ([5, 6, 1, 1000, 200], vec![101], vec![100], vec![0], 1, 1, (2, 0)),
        ([5, 4, 1, 1000, 1000], vec![101], vec![100], vec![0], 1, 1, (3, 0)),
        ([5, 4, 1, 1000, 201], vec![101], vec![100], vec![0], 1, 1, (4, 0)),
        (ROAD_A, vec![], vec![100], vec![0], 1, 0, (5, 0)),
        (ROAD_A, vec![101], vec![100; 1441], vec![0; 1441], 1441, 1, (6, 0)),
        (ROAD_A, vec![101], vec![100, 100], vec![0], 1, 1, (7, 0)),
        (ROAD_A, vec![101], vec![100], vec![0], 1, 2, (8, 0)),
        (ROAD_A, vec![101, 1001], vec![100], vec![0], 1, 2, (9, 2)),
        (ROAD_A, vec![101], vec![100, 1001], vec![0, 0], 2, 1, (10, 1)),
        (ROAD_A, vec![101], vec![100, 100], vec![0, 1001], 2, 1, (11, 1)),
    ];
    for (road, cells, up, down, horizon, out, refusal) in faulty {
        for so_far in [empty, full] {
            let answer = forecast(road, &cells, &up, &down, horizon, &open(cells.len()), so_far, out);
            assert_eq!(answer, Err(refusal), "from {so_far:?}");
        }
    }
}

/// The request on roadworks, on road A: forecasts, with the exact densities times the divisor after one step; settling
/// runs; the rows' promise at its bound; and where 20 stands in the order of checks.
#[test]
fn fixed_caps() {
    let cells = [300, 150, 700];
    let one_step = [
        (0, vec![101], vec![9, 30], vec![71], [0, 30], vec![355]),
        (0, vec![101], vec![9, 80], vec![21], [0, 80], vec![105]),
        (0, vec![101], vec![9, 81], vec![20], [0, 81], vec![101]),
        (100, cells.to_vec(), vec![80, 160, 60, 160], vec![220, 250, 600], [80, 160], vec![1100, 1250, 3000]),
        (100, cells.to_vec(), vec![79, 160, 60, 160], vec![219, 250, 600], [79, 160], vec![1095, 1250, 3000]),
        (100, cells.to_vec(), vec![OPEN, 50, OPEN, 100], vec![330, 140, 660], [80, 100], vec![1650, 700, 3300]),
        (1000, vec![300], vec![2_147_483_648, 2_147_483_653], vec![280], [140, 160], vec![1400]),
    ];
    for (up, cells, caps, next, own, times_divisor) in one_step {
        let n = cells.len();
        let done = Forecast { cells: next, own, totals: own };
        assert_eq!(forecast(ROAD_A, &cells, &[up], &[0], 1, &caps, [0, 0], n), Ok(done), "caps {caps:?}");
        let whole: Vec<Whole> = times_divisor.into_iter().map(Whole::new).collect();
        assert_eq!(exact::run(ROAD_A, &caps, &cells, &[up], &[0]).0, whole, "caps {caps:?}");
    }
    let three_steps = Forecast { cells: vec![390, 98, 602], own: [240, 300], totals: [240, 300] };
    let narrowed = [OPEN, 50, OPEN, 100];
    assert_eq!(forecast(ROAD_A, &cells, &[100; 3], &[0; 3], 3, &narrowed, [0, 0], 3), Ok(three_steps));
    let closed = Forecast { cells: cells.to_vec(), own: [0, 0], totals: [0, 0] };
    assert_eq!(forecast(ROAD_A, &cells, &[100; 2], &[0; 2], 2, &[0; 4], [0, 0], 3), Ok(closed));

    let still = |cells: &[u32]| Ok(Settled { cells: cells.to_vec(), settled: true, steps: 0 });
    assert_eq!(settle(ROAD_A, &cells, 100, 0, 2, &[0; 4], 3), still(&cells));
    assert_eq!(settle(ROAD_A, &[300, 300], 1000, 0, 9, &[50; 3], 2), still(&[300, 300]));

    // The numerators are 0, 404 of the one cell and 400, 800, 300, 800 of the three: at cap x divisor a row still is the
    // exact step, above it the row stays and the step does not.
    assert_eq!(raw::rows(ROAD_A, &[101], 0, 0, &[2, 2], 1), Ok(vec![101]));
    assert_eq!(uncapped(ROAD_A, &[101], 0, 0, &[0, 81]), [0]);
    assert!(uncapped(ROAD_A, &[101], 0, 0, &[0, 80]).is_empty());
    assert_eq!(uncapped(ROAD_A, &cells, 100, 0, &[80, 160, 60, 160]), [0, 1, 2]);
    assert_eq!(uncapped(ROAD_A, &cells, 100, 0, &[79, 160, 60, 160]), [1, 2]);
    assert_eq!(uncapped(ROAD_A, &cells, 100, 0, &[80, 160, 59, 160]), [0]);

    // 20 comes after 8 and before 9, 10, 11 and 19; a list of no caps is no list of open ones.
    let full = [u64::MAX, u64::MAX];
    let refused = [
        (vec![1001], 0, 0, vec![9], 1, (20, 0)),
        (vec![1001], 0, 0, vec![9], 2, (8, 0)),
        (vec![1001], 0, 0, vec![9, 9], 1, (9, 1)),
        (vec![101], 1001, 1001, vec![9], 1, (20, 0)),
        (vec![101], 1001, 1001, vec![9, 9], 1, (10, 0)),
        (vec![101], 0, 1001, vec![9, 9], 1, (11, 0)),
        (vec![101], 0, 0, vec![], 1, (20, 0)),
        (vec![101], 0, 0, vec![OPEN], 1, (20, 0)),
        (vec![101], 0, 0, vec![OPEN; 3], 1, (20, 0)),
        (vec![], 0, 0, vec![OPEN], 0, (5, 0)),
    ];
    for (cells, up, down, caps, out, refusal) in refused {
        for so_far in [[0, 0], full] {
            let answer = forecast(ROAD_A, &cells, &[up], &[down], 1, &caps, so_far, out);
            assert_eq!(answer, Err(refusal), "cells {cells:?}, caps {caps:?}, out {out}");
        }
        let answer = settle(ROAD_A, &cells, up, down, 1, &caps, out);
        assert_eq!(answer, Err(refusal), "cells {cells:?}, caps {caps:?}, out {out}");
    }
    assert_eq!(forecast(ROAD_A, &[101], &[], &[0], 1, &[], full, 1), Err((7, 0)));
    assert_eq!(forecast(ROAD_A, &[101], &[0], &[0], 1, &[9, 9], full, 1), Err((19, 0)));
}

/// The request on stillness: road, upstream end, cells, downstream end, caps and horizon; whether settled, the steps and
/// the cells. In its own case, which is first, a step keeps the letters and the sum, and no density.
#[test]
fn fixed_stillness() {
    const UNIT_ROAD: [u32; 5] = [1, 1, 1, 2, 1];
    let first_step = Forecast { cells: vec![0, 1], own: [0, 0], totals: [0, 0] };
    assert_eq!(forecast(UNIT_ROAD, &[1, 0], &[0], &[0], 1, &open(2), [0, 0], 2), Ok(first_step));

    let slow_road = [4096, 1, 1, 1_000_000, 500_000];
    let runs = [
        (UNIT_ROAD, 0, vec![1, 0], 0, open(2), 9, true, 2, vec![0, 0]),
        (UNIT_ROAD, 0, vec![1, 0], 0, open(2), 1, false, 1, vec![0, 1]),
        (UNIT_ROAD, 0, vec![1, 0], 0, open(2), 2, false, 2, vec![0, 0]),
        (UNIT_ROAD, 0, vec![1, 0], 0, open(2), 3, true, 2, vec![0, 0]),
        (UNIT_ROAD, 0, vec![0, 0], 0, open(2), 0, false, 0, vec![0, 0]),
        (ROAD_A, 0, vec![2], 0, open(1), 9, true, 1, vec![0]),
        (ROAD_A, 39, vec![34, 39], 0, open(2), 50, true, 4, vec![39, 39]),
        (ROAD_A, 1000, vec![300, 300], 0, vec![50, 49, 50], 9, false, 9, vec![309, 291]),
        (ROAD_A, 1000, vec![300, 300], 0, vec![50, 50, 50], 9, true, 0, vec![300, 300]),
        (ROAD_A, 1000, vec![0; 256], 0, open(256), 1440, true, 387, vec![200; 256]),
        (slow_road, 0, vec![500_000], 0, open(1), 1440, false, 1440, vec![351_779]),
    ];
    for (road, up, start, down, caps, horizon, settled, steps, cells) in runs {
        let answer = settle(road, &start, up, down, horizon, &caps, start.len());
        assert_eq!(answer, Ok(Settled { cells, settled, steps }), "cells {start:?}, caps {caps:?}, horizon {horizon}");
    }
}

/// The request on the longest run: 1,440 steps are accepted, here with the units entered and left and the first and the
/// last cell, and 1,441 give 6, after 5 and before 7 and 8.
#[test]
fn fixed_horizons() {
    let widest = [4096, 4096, 4096, 1_000_000, 500_000];
    let longest = [
        (ROAD_A, vec![0], 0, [0, 0], [0, 0]),
        (ROAD_A, vec![1000], 1000, [229_602, 230_400], [202, 202]),
        (ROAD_A, vec![1000; 256], 0, [0, 230_400], [0, 202]),
        (widest, vec![1_000_000; 256], 1_000_000, [592_000_000, 720_000_000], [500_000, 500_000]),
        (widest, vec![0], 1_000_000, [720_000_000, 719_500_000], [500_000, 500_000]),
    ];
    for (road, start, up, own, first_and_last) in longest {
        let n = start.len();
        let answer = forecast(road, &start, &[up; 1440], &[0; 1440], 1440, &open(n), [0, 0], n);
        let found = answer.map(|done| (done.own, [done.cells[0], done.cells[n - 1]]));
        assert_eq!(found, Ok((own, first_and_last)), "road {road:?}, cells {start:?}");
    }
    let refused = [
        (1, 1441, 1441, (6, 0)),
        (1, 1441, 1440, (6, 0)),
        (1, 4096, 1441, (6, 0)),
        (1, 4096, 4096, (6, 0)),
        (1, 1440, 1439, (7, 0)),
        (0, 1441, 1441, (5, 0)),
    ];
    for (n, horizon, ends, refusal) in refused {
        let (cells, ends) = (vec![0; n], vec![0; ends]);
        let answer = forecast(ROAD_A, &cells, &ends, &ends, horizon, &open(n), [0, 0], n);
        assert_eq!(answer, Err(refusal), "horizon {horizon}, {} ends", ends.len());
    }

    let emptied = Settled { cells: vec![0], settled: true, steps: 9 };
    assert_eq!(settle(ROAD_A, &[1000], 0, 0, 1440, &open(1), 1), Ok(emptied));
    let of_256 = settle(ROAD_A, &[1000; 256], 0, 0, 1440, &open(256), 256).expect("accepted");
    assert_eq!((of_256.settled, of_256.steps), (false, 1440));
    for (horizon, out) in [(1441, 1), (1441, 2), (4096, 1)] {
        assert_eq!(settle(ROAD_A, &[1000], 0, 0, horizon, &open(1), out), Err((6, 0)), "horizon {horizon}, out {out}");
    }
}

/// The cases of the request on stations, to the bit.
#[test]
fn fixed_stations() {
    use Station::{Density, FlowAndSpeed, Speed};
    let (tiny, below_free) = (f64::from_bits(1), f64::from_bits(0x3fe9_9999_9999_9999));
    let accepted = [
        (ROAD_A, Density(1000.0), 1000f64.to_bits()),
        (ROAD_A, Density(0.0), 0),
        (ROAD_A, Density(-0.0), 1 << 63),
        (ROAD_A, Density(tiny), 1),
        (ROAD_A, FlowAndSpeed(80.0, 0.8), 100f64.to_bits()),
        (ROAD_A, FlowAndSpeed(10.0, 0.3), 0x4040_aaaa_aaaa_aaab),
        (ROAD_A, FlowAndSpeed(1e-300, 1e300), 0),
        (ROAD_A, FlowAndSpeed(-0.0, 0.8), 1 << 63),
        (ROAD_A, FlowAndSpeed(tiny, tiny), 1f64.to_bits()),
        (ROAD_A, Speed(0.0), 1000f64.to_bits()),
        (ROAD_A, Speed(-0.0), 1000f64.to_bits()),
        (ROAD_A, Speed(tiny), 1000f64.to_bits()),
        (ROAD_A, Speed(0.2), 500f64.to_bits()),
        (ROAD_A, Speed(0.6), 250f64.to_bits()),
        (ROAD_A, Speed(below_free), 200f64.to_bits()),
        (ROAD_A, Speed(0.1), 0x4084_d555_5555_5555),
        ([5, 2, 3, 1000, 600], Speed(0.3), 0x4084_d555_5555_5555),
        ([3, 1, 1, 2, 1], Speed(f64::from_bits(0x3fd5_5555_5555_5554)), 0x3ff0_0000_0000_0001),
    ];
    for (road, reading, bits) in accepted {
        assert_eq!(station(road, reading).map(f64::to_bits), Ok(bits), "road {road:?}, {reading:?}");
    }
    let refused = [
        (ROAD_A, Density(f64::from_bits(0x408f_4000_0000_0001)), 18),
        (ROAD_A, FlowAndSpeed(1.0, tiny), 18),
        (ROAD_A, FlowAndSpeed(0.0, 0.0), 16),
        (ROAD_A, FlowAndSpeed(0.0, -0.0), 16),
        (ROAD_A, FlowAndSpeed(80.0, -0.0), 16),
        (ROAD_A, Speed(0.8), 17),
        (ROAD_A, Speed(1.7e308), 17),
        // A third of a cell a step as a float is below 1/3, but three times it rounds to 1.
        ([3, 1, 1, 2, 1], Speed(1.0 / 3.0), 17),
        ([5, 6, 1, 1000, 200], Density(f64::NAN), 2),
        ([5, 6, 1, 1000, 200], Speed(0.8), 2),
    ];
    for (road, reading, number) in refused {
        assert_eq!(station(road, reading), Err((number, 0)), "road {road:?}, {reading:?}");
    }
    for bad in [f64::NAN, -f64::NAN, -1.0, -tiny, f64::INFINITY, f64::NEG_INFINITY] {
        for reading in [Density(bad), FlowAndSpeed(bad, 0.8), FlowAndSpeed(80.0, bad), Speed(bad)] {
            assert_eq!(station(ROAD_A, reading), Err((16, 0)), "{reading:?}");
        }
    }
}

/// How near the next mode is: road, upstream end, cells, downstream end, and the ranking. The greatest change there can
/// be is the last.
#[test]
fn fixed_nearest() {
    let accepted = [
        (ROAD_A, 100, vec![300, 150, 700], 0, vec![2, 1, 3], vec![51, -100, -300]),
        (ROAD_A, 100, vec![400], 204, vec![1], vec![-201]),
        (ROAD_A, 0, vec![200, 201], 0, vec![1, 2], vec![-1, -1]),
        ([2, 1, 2, 9, 6], 1, vec![6, 9, 9], 0, vec![1, 2, 3], vec![3, -3, -3]),
        (ROAD_A, 100, vec![200, 201, 1000, 0, 400], 204, vec![1, 2, 4, 5, 3], vec![-1, -1, 151, -201, -800]),
        ([5, 2, 3, 5, 3], 1, vec![3], 5, vec![1], vec![2]),
        ([1, 1, 1, 2, 1], 0, vec![0], 0, vec![1], vec![2]),
        ([1, 1, 1, 1_000_000, 500_000], 0, vec![1_000_000], 1_000_000, vec![1], vec![-1_000_000]),
    ];
    for (road, up, cells, down, numbers, changes) in accepted {
        let ranking = nearest_by_trying(road, &cells, up, down);
        assert_eq!(ranking, (numbers, changes), "road {road:?}, cells {cells:?}, up {up}, down {down}");
    }
    // An output's length is judged before the cells, and the cells before the ends.
    let refused = [
        (vec![], 0, 0, (0, 0), (5, 0)),
        (vec![0; 257], 0, 0, (257, 257), (5, 0)),
        (vec![300, 150], 100, 0, (1, 2), (8, 0)),
        (vec![300, 150], 100, 0, (3, 2), (8, 0)),
        (vec![300, 150], 100, 0, (2, 1), (8, 0)),
        (vec![300, 150], 100, 0, (2, 3), (8, 0)),
        (vec![300, 1001], 100, 0, (0, 2), (8, 0)),
        (vec![300, 1001], 100, 0, (2, 0), (8, 0)),
        (vec![300, 1001, 1001], 1001, 1001, (3, 3), (9, 2)),
        (vec![300, 1000], 1001, 1001, (2, 2), (10, 0)),
        (vec![300, 1000], 1000, 1001, (2, 2), (11, 0)),
    ];
    for (cells, up, down, (numbers, changes), refusal) in refused {
        let answer = nearest(ROAD_A, &cells, up, down, numbers, changes);
        assert_eq!(answer, Err(refusal), "cells {cells:?}, up {up}, down {down}, outputs {numbers}, {changes}");
    }
}

/// Every refusal has words of its own, and any number can be printed.
#[test]
fn refusals_have_words() {
    let text = |number| Refusal { number, place: 3 }.to_string();
    let reason = |number: u32| text(number).split_once(": ").expect("a reason").1.to_string();
    for number in 1..=20 {
        assert!(text(number).starts_with(&format!("refusal {number} at ")));
        assert!((1..number).all(|other| reason(other) != reason(number)));
        assert_ne!(reason(number), reason(u32::MAX));
    }
    let places = [(1, "place 3"), (9, "cell 3"), (10, "step 3"), (12, "face 3"), (14, "estimate 3"), (20, "place 3")];
    for (number, place) in places {
        assert!(text(number).starts_with(&format!("refusal {number} at {place}: ")));
    }
}
