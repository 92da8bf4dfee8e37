//! The scope document and the requests after it in plain Rust, written from these documents and from the readings of
//! their open points in docs/DECISIONS.md: wide integers, whole vectors, one short function a sentence. It shares no code
//! with the library, so that a difference is a fault of one of the two.

/// A refusal: its number and place.
pub type Refused = (u32, u32);

/// The five whole numbers of a road.
#[derive(Clone, Copy, Debug)]
pub struct Road {
    pub d: i128,
    pub p: i128,
    pub q: i128,
    pub j: i128,
    pub c: i128,
}

impl Road {
    pub fn new(r: [u32; 5]) -> Road {
        let [d, p, q, j, c] = r.map(i128::from);
        Road { d, p, q, j, c }
    }
}

// The refusal table, a function a row: the refusal where the row applies.

fn row_1(r: &Road) -> Option<Refused> {
    (r.d == 0 || r.d > 4096).then_some((1, 0))
}

fn row_2(r: &Road) -> Option<Refused> {
    let bad = |speed: i128| speed == 0 || speed > r.d;
    (bad(r.p) || bad(r.q)).then_some((2, 0))
}

fn row_3(r: &Road) -> Option<Refused> {
    let jam_fits = 2 <= r.j && r.j <= 1_000_000;
    let critical_fits = 1 <= r.c && r.c < r.j;
    (!jam_fits || !critical_fits).then_some((3, 0))
}

fn row_4(r: &Road) -> Option<Refused> {
    (r.p * r.c != r.q * (r.j - r.c)).then_some((4, 0))
}

fn row_5(cells: &[u32]) -> Option<Refused> {
    (cells.is_empty() || cells.len() > 256).then_some((5, 0))
}

fn row_6(horizon: u32) -> Option<Refused> {
    (horizon > 1440).then_some((6, 0))
}

fn row_7(lengths: [usize; 2], horizon: u32) -> Option<Refused> {
    lengths.iter().any(|&length| length as u128 != u128::from(horizon)).then_some((7, 0))
}

fn row_8(outputs: &[(usize, usize)]) -> Option<Refused> {
    outputs.iter().any(|&(length, wanted)| length != wanted).then_some((8, 0))
}

fn row_9(r: &Road, cells: &[u32]) -> Option<Refused> {
    cells.iter().position(|&x| i128::from(x) > r.j).map(|i| (9, i as u32 + 1))
}

fn row_10(r: &Road, upstream: &[u32]) -> Option<Refused> {
    upstream.iter().position(|&x| i128::from(x) > r.j).map(|t| (10, t as u32))
}

fn row_11(r: &Road, downstream: &[u32]) -> Option<Refused> {
    downstream.iter().position(|&x| i128::from(x) > r.j).map(|t| (11, t as u32))
}

fn row_12(n: usize, word: &[u8]) -> Option<Refused> {
    if word.len() != n + 1 {
        return Some((12, n as u32 + 1));
    }
    (0..word.len()).find(|&i| word[i] > 2 || (i > 0 && illegal(word[i - 1], word[i]))).map(|i| (12, i as u32))
}

fn row_13(mode: u32) -> Option<Refused> {
    (!(1..=7).contains(&mode)).then_some((13, 0))
}

fn row_14(r: &Road, estimates: [f64; 3]) -> Option<Refused> {
    let bad = |x: &f64| x.is_nan() || *x < 0.0 || *x > r.j as f64;
    estimates.iter().position(bad).map(|i| (14, i as u32 + 1))
}

fn row_15(cells: u32) -> Option<Refused> {
    (cells > 40).then_some((15, 0))
}

fn row_16(reading: Station) -> Option<Refused> {
    let bad = |x: f64| x.is_nan() || x < 0.0 || x.is_infinite();
    let applies = match reading {
        Station::Density(density) => bad(density),
        Station::FlowAndSpeed(flow, speed) => bad(flow) || bad(speed) || speed == 0.0,
        Station::Speed(speed) => bad(speed),
    };
    applies.then_some((16, 0))
}

fn row_17(r: &Road, reading: Station) -> Option<Refused> {
    matches!(reading, Station::Speed(s) if s * r.d as f64 >= r.p as f64).then_some((17, 0))
}

fn row_18(r: &Road, reading: Station) -> Option<Refused> {
    (!(0.0..=r.j as f64).contains(&estimate(r, reading))).then_some((18, 0))
}

/// "A total that would pass 18,446,744,073,709,551,615": of entered or of left, each increased by the call's own.
fn row_19(totals: Units, own: Units) -> Option<Refused> {
    let passes = |i: usize| u128::from(totals[i]) + u128::from(own[i]) > 18_446_744_073_709_551_615;
    (passes(0) || passes(1)).then_some((19, 0))
}

/// "A cap list whose length is not n+1", an empty one too. A cap may be any number.
fn row_20(n: usize, caps: &[u32]) -> Option<Refused> {
    (caps.len() != n + 1).then_some((20, 0))
}

/// The first that applies, out of rows that were all looked at and stand in the call's order of checks.
fn judge(rows: &[Option<Refused>]) -> Result<(), Refused> {
    match rows.iter().flatten().next() {
        Some(&refused) => Err(refused),
        None => Ok(()),
    }
}

// Faces.

pub const W: u8 = 0;
pub const L: u8 = 1;
pub const D: u8 = 2;

/// W is never followed by D, nor L by L.
pub fn illegal(letter: u8, next: u8) -> bool {
    (letter == W && next == D) || (letter == L && next == L)
}

/// The flow numerator between upstream density a and downstream density b.
pub fn numerator(r: &Road, a: i128, b: i128) -> i128 {
    i128::min(r.p * i128::min(a, r.c), r.q * (r.j - i128::max(b, r.c)))
}

/// The units of a flow numerator: the nearest whole number to f / D, an exact half up.
pub fn units(r: &Road, f: i128) -> i128 {
    let (whole, rest) = (f / r.d, f % r.d);
    if rest < r.d - rest {
        whole
    } else {
        whole + 1
    }
}

/// The letter between a and b; each pair has one.
pub fn letter(r: &Road, a: i128, b: i128) -> u8 {
    let w = b > r.c && r.q * (r.j - b) < r.p * a;
    let l = a > r.c && b <= r.c;
    let d = a <= r.c && r.q * (r.j - b) >= r.p * a;
    match (w, l, d) {
        (true, false, false) => W,
        (false, true, false) => L,
        (false, false, true) => D,
        letters => panic!("{r:?}: the pair ({a}, {b}) has the letters {letters:?}"),
    }
}

/// The densities with the ghost cells at both ends: face i lies between entries i and i + 1.
fn with_ends(cells: &[i128], up: i128, down: i128) -> Vec<i128> {
    let mut all = vec![up];
    all.extend(cells);
    all.push(down);
    all
}

pub fn word_of(r: &Road, cells: &[i128], up: i128, down: i128) -> Vec<u8> {
    with_ends(cells, up, down).windows(2).map(|pair| letter(r, pair[0], pair[1])).collect()
}

/// The flow numerator of each face.
pub fn numerators(r: &Road, cells: &[i128], up: i128, down: i128) -> Vec<i128> {
    with_ends(cells, up, down).windows(2).map(|pair| numerator(r, pair[0], pair[1])).collect()
}

/// "A face moves the smaller of its rounded flow and its cap": the next densities, and the units over each face.
fn step(r: &Road, caps: &[u32], cells: &[i128], up: i128, down: i128) -> (Vec<i128>, Vec<i128>) {
    let flows = numerators(r, cells, up, down).into_iter().map(|numerator| units(r, numerator));
    let moved: Vec<i128> = flows.zip(caps).map(|(flow, &cap)| i128::min(flow, i128::from(cap))).collect();
    let next = (0..cells.len()).map(|i| cells[i] + moved[i] - moved[i + 1]).collect();
    (next, moved)
}

pub fn wide(cells: &[u32]) -> Vec<i128> {
    cells.iter().map(|&x| i128::from(x)).collect()
}

fn narrow(cells: &[i128]) -> Vec<u32> {
    cells.iter().map(|&x| u32::try_from(x).expect("a density")).collect()
}

// Level 1.

/// Units over the face before the first cell and over that after the last one: entered and left.
pub type Units = [u64; 2];

/// The cells after the last step, the units of the forecast's own steps, and the totals since commissioning.
#[derive(Clone, Debug, PartialEq)]
pub struct Forecast {
    pub cells: Vec<u32>,
    pub own: Units,
    pub totals: Units,
}

/// The cells after a step for each pair of ends, and the units of these steps.
fn run(r: &Road, caps: &[u32], cells: &[u32], up: &[u32], down: &[u32]) -> (Vec<u32>, Units) {
    let (mut x, mut entered, mut left) = (wide(cells), 0, 0);
    for (&up, &down) in up.iter().zip(down) {
        let (next, units) = step(r, caps, &x, i128::from(up), i128::from(down));
        x = next;
        entered += units[0];
        left += units[cells.len()];
    }
    (narrow(&x), [entered, left].map(|units| u64::try_from(units).expect("a count")))
}

#[allow(clippy::too_many_arguments)]
pub fn forecast(
    r: [u32; 5],
    cells: &[u32],
    up: &[u32],
    down: &[u32],
    horizon: u32,
    caps: &[u32],
    totals: Units,
    out: usize,
) -> Result<Forecast, Refused> {
    let r = &Road::new(r);
    judge(&[
        row_1(r),
        row_2(r),
        row_3(r),
        row_4(r),
        row_5(cells),
        row_6(horizon),
        row_7([up.len(), down.len()], horizon),
        row_8(&[(out, cells.len())]),
        row_20(cells.len(), caps),
        row_9(r, cells),
        row_10(r, up),
        row_11(r, down),
    ])?;
    // Only an input that passes these has steps, and so units of its own: "checked last".
    let (cells, own) = run(r, caps, cells, up, down);
    judge(&[row_19(totals, own)])?;
    Ok(Forecast { cells, own, totals: [totals[0] + own[0], totals[1] + own[1]] })
}

#[derive(Clone, Debug, PartialEq)]
pub struct Settled {
    pub cells: Vec<u32>,
    pub settled: bool,
    pub steps: u32,
}

/// A step is "still exactly when every single density is kept".
pub fn settle(
    r: [u32; 5],
    cells: &[u32],
    up: u32,
    down: u32,
    horizon: u32,
    caps: &[u32],
    out: usize,
) -> Result<Settled, Refused> {
    let r = &Road::new(r);
    judge(&[
        row_1(r),
        row_2(r),
        row_3(r),
        row_4(r),
        row_5(cells),
        row_6(horizon),
        row_8(&[(out, cells.len())]),
        row_20(cells.len(), caps),
        row_9(r, cells),
        row_10(r, &[up]),
        row_11(r, &[down]),
    ])?;
    let (up, down) = (i128::from(up), i128::from(down));
    let mut x = wide(cells);
    for k in 0..horizon {
        let (next, _) = step(r, caps, &x, up, down);
        if next == x {
            return Ok(Settled { cells: narrow(&x), settled: true, steps: k });
        }
        x = next;
    }
    Ok(Settled { cells: narrow(&x), settled: false, steps: horizon })
}

// Level 2.

/// The table of the seven modes: letters, p × left, p × own, q × own, q × right, and the constant by q × C, p × C, q × J.
#[rustfmt::skip]
const MODES: [([u8; 2], [i128; 4], [i128; 3]); 7] = [
    ([W, W], [0,  0, -1, 1], [ 0,  0,  0]),
    ([W, L], [0,  0, -1, 0], [ 1,  0,  0]),
    ([L, W], [0,  0,  0, 1], [-1,  0,  0]),
    ([L, D], [0, -1,  0, 0], [ 0,  1,  0]),
    ([D, W], [1,  0,  0, 1], [ 0,  0, -1]),
    ([D, L], [1,  0,  0, 0], [ 0, -1,  0]),
    ([D, D], [1, -1,  0, 0], [ 0,  0,  0]),
];

/// The mode, 1 to 7, of a cell between two faces.
fn mode_of(before: u8, after: u8) -> u8 {
    MODES.iter().position(|mode| mode.0 == [before, after]).expect("a legal pair") as u8 + 1
}

/// A mode's coefficients of left, own and right, and its constant.
fn row(r: &Road, mode: u8) -> [i128; 4] {
    let (_, [left_p, own_p, own_q, right_q], [qc, pc, qj]) = MODES[usize::from(mode) - 1];
    let own = r.d + own_p * r.p + own_q * r.q;
    [left_p * r.p, own, right_q * r.q, qc * r.q * r.c + pc * r.p * r.c + qj * r.q * r.j]
}

#[derive(Debug, PartialEq)]
pub struct Reading {
    pub letters: Vec<u8>,
    pub modes: Vec<u8>,
    pub counts: [u32; 7],
    pub queued: u32,
}

pub fn read(r: [u32; 5], cells: &[u32], up: u32, down: u32, letters: usize, modes: usize) -> Result<Reading, Refused> {
    let r = &Road::new(r);
    let n = cells.len();
    judge(&[
        row_1(r),
        row_2(r),
        row_3(r),
        row_4(r),
        row_5(cells),
        row_8(&[(letters, n + 1), (modes, n)]),
        row_9(r, cells),
        row_10(r, &[up]),
        row_11(r, &[down]),
    ])?;
    let letters = word_of(r, &wide(cells), i128::from(up), i128::from(down));
    let modes: Vec<u8> = letters.windows(2).map(|pair| mode_of(pair[0], pair[1])).collect();
    let mut counts = [0; 7];
    for mode in 1..=7u8 {
        counts[usize::from(mode) - 1] = modes.iter().filter(|&&m| m == mode).count() as u32;
    }
    let queued = cells.iter().filter(|&&x| i128::from(x) > r.c).count() as u32;
    Ok(Reading { letters, modes, counts, queued })
}

/// None where every face holds, else the lowest that does not.
pub fn fit(r: [u32; 5], cells: &[u32], up: u32, down: u32, word: &[u8]) -> Result<Option<u32>, Refused> {
    let r = &Road::new(r);
    judge(&[
        row_1(r),
        row_2(r),
        row_3(r),
        row_4(r),
        row_5(cells),
        row_9(r, cells),
        row_10(r, &[up]),
        row_11(r, &[down]),
        row_12(cells.len(), word),
    ])?;
    let own = word_of(r, &wide(cells), i128::from(up), i128::from(down));
    Ok((0..word.len()).find(|&i| own[i] != word[i]).map(|i| i as u32))
}

pub fn rows(r: [u32; 5], cells: &[u32], up: u32, down: u32, word: &[u8], out: usize) -> Result<Vec<i64>, Refused> {
    let r = &Road::new(r);
    let n = cells.len();
    judge(&[
        row_1(r),
        row_2(r),
        row_3(r),
        row_4(r),
        row_5(cells),
        row_8(&[(out, n)]),
        row_9(r, cells),
        row_10(r, &[up]),
        row_11(r, &[down]),
        row_12(n, word),
    ])?;
    let x = with_ends(&wide(cells), i128::from(up), i128::from(down));
    let value = |i: usize| {
        let [left, own, right, constant] = row(r, mode_of(word[i - 1], word[i]));
        left * x[i - 1] + own * x[i] + right * x[i + 1] + constant
    };
    Ok((1..=n).map(|i| i64::try_from(value(i)).expect("a numerator")).collect())
}

pub fn candidate(r: [u32; 5], mode: u32, estimates: [f64; 3]) -> Result<f64, Refused> {
    let r = &Road::new(r);
    judge(&[row_1(r), row_2(r), row_3(r), row_4(r), row_13(mode), row_14(r, estimates)])?;
    let [left, own, right, constant] = row(r, mode as u8).map(|whole| whole as f64);
    let by_left = estimates[0] * left;
    let by_own = estimates[1] * own;
    let by_right = estimates[2] * right;
    let two = by_left + by_own;
    let three = two + by_right;
    Ok(three + constant)
}

/// The whole numerator of a mode's row, where all three estimates are whole.
pub fn whole_candidate(r: [u32; 5], mode: u32, estimates: [i128; 3]) -> i128 {
    let [left, own, right, constant] = row(&Road::new(r), mode as u8);
    left * estimates[0] + own * estimates[1] + right * estimates[2] + constant
}

/// The legal words of so many cells: for each last letter the words that end in it, each lengthened by what may follow.
pub fn count(cells: u32) -> Result<u64, Refused> {
    judge(&[row_15(cells)])?;
    let mut ending = [1u64; 3];
    for _ in 0..cells {
        let mut longer = [0; 3];
        for last in [W, L, D] {
            for next in [W, L, D] {
                if !illegal(last, next) {
                    longer[usize::from(next)] += ending[usize::from(last)];
                }
            }
        }
        ending = longer;
    }
    Ok(ending.iter().sum())
}

/// The legal words of so many cells, one by one.
pub fn legal_words(cells: u32) -> Vec<Vec<u8>> {
    let all = 3u32.pow(cells + 1);
    let word = |code: u32| (0..=cells).map(|face| (code / 3u32.pow(face) % 3) as u8).collect::<Vec<u8>>();
    (0..all).map(word).filter(|word| !word.windows(2).any(|pair| illegal(pair[0], pair[1]))).collect()
}

// Level 3.

/// What a station gives: a density, a flow with a speed, or a speed alone.
#[derive(Clone, Copy, Debug)]
pub enum Station {
    Density(f64),
    FlowAndSpeed(f64, f64),
    Speed(f64),
}

/// The density that a reading stands for, refused or not.
fn estimate(r: &Road, reading: Station) -> f64 {
    match reading {
        Station::Density(density) => density,
        Station::FlowAndSpeed(flow, speed) => flow / speed,
        Station::Speed(s) => {
            let above = r.q as f64 * r.j as f64;
            let by_divisor = s * r.d as f64;
            let below = by_divisor + r.q as f64;
            above / below
        }
    }
}

pub fn station(r: [u32; 5], reading: Station) -> Result<f64, Refused> {
    let r = &Road::new(r);
    judge(&[row_1(r), row_2(r), row_3(r), row_4(r), row_16(reading), row_17(r, reading), row_18(r, reading)])?;
    Ok(estimate(r, reading))
}

/// The cells, numbered from 1, and the change of the cell at the same place.
pub type Ranking = (Vec<u32>, Vec<i32>);

/// The changes of the cells in their order, ranked: by size, then by cell.
fn ranked(changes: impl Iterator<Item = i128>) -> Ranking {
    let changes = changes.map(|change| i32::try_from(change).expect("a change"));
    let mut cells: Vec<(u32, i32)> = (1..).zip(changes).collect();
    cells.sort_by_key(|&(number, change)| (change.abs(), number));
    cells.into_iter().unzip()
}

/// Whether a change of cell i, counted from 0, leaves it from 0 to J and the state with another word.
pub fn alters(r: &Road, cells: &[i128], up: i128, down: i128, i: usize, change: i128) -> bool {
    let mut changed = cells.to_vec();
    changed[i] += change;
    (0..=r.j).contains(&changed[i]) && word_of(r, &changed, up, down) != word_of(r, cells, up, down)
}

/// The ranking of an accepted state in the request's own words: for each cell, every size from 1 on, down before up.
pub fn nearest_by_trying(r: [u32; 5], cells: &[u32], up: u32, down: u32) -> Ranking {
    let (r, cells, up, down) = (&Road::new(r), &wide(cells), i128::from(up), i128::from(down));
    let smallest = |i: usize| {
        let mut tried = (1..=r.j).flat_map(|size| [-size, size]);
        tried.find(|&change| alters(r, cells, up, down, i, change)).expect("every cell has such a change")
    };
    ranked((0..cells.len()).map(smallest))
}

/// The first density with another letter than density 0; none where all have the same. Found by halving: the letter of
/// a face changes at most once while the density on one side of it rises. (Who tries every change need not know that.)
fn border(r: &Road, letter_with: impl Fn(i128) -> u8) -> Option<i128> {
    let as_at_0 = |density: i128| letter_with(density) == letter_with(0);
    let (mut below, mut border) = (0, r.j);
    while border - below > 1 {
        let middle = (below + border) / 2;
        if as_at_0(middle) {
            below = middle;
        } else {
            border = middle;
        }
    }
    (!as_at_0(border)).then_some(border)
}

/// Where the letters of a cell's two faces change, between the densities left and right of it: one border or two.
pub fn borders(r: &Road, left: i128, right: i128) -> Vec<i128> {
    let before = border(r, |own| letter(r, left, own));
    let after = border(r, |own| letter(r, own, right));
    before.into_iter().chain(after).collect()
}

/// The smallest change of a cell by its two letters alone, those of a road of one cell between its neighbours: it leads
/// to a density right beside a border.
fn change_to_border(r: &Road, left: i128, own: i128, right: i128) -> i128 {
    let letters = |density: i128| word_of(r, &[density], left, right);
    let beside = borders(r, left, right).into_iter().flat_map(|border| [border - 1, border]);
    let changes = beside.filter(|&density| letters(density) != letters(own)).map(|density| density - own);
    changes.min_by_key(|change| (change.abs(), change.is_positive())).expect("every cell has such a change")
}

pub fn nearest(
    r: [u32; 5],
    cells: &[u32],
    up: u32,
    down: u32,
    numbers: usize,
    changes: usize,
) -> Result<Ranking, Refused> {
    let r = &Road::new(r);
    let n = cells.len();
    judge(&[
        row_1(r),
        row_2(r),
        row_3(r),
        row_4(r),
        row_5(cells),
        row_8(&[(numbers, n), (changes, n)]),
        row_9(r, cells),
        row_10(r, &[up]),
        row_11(r, &[down]),
    ])?;
    let x = with_ends(&wide(cells), i128::from(up), i128::from(down));
    Ok(ranked(x.windows(3).map(|three| change_to_border(r, three[0], three[1], three[2]))))
}
