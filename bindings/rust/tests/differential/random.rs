//! Inputs: a pseudo-random generator of our own, roads, densities, caps, totals, words, stations and the ways to damage
//! them.

use super::reference::{self, illegal, Station, Units};
use welgadou::OPEN;

/// SplitMix64.
pub struct Random(u64);

impl Random {
    pub fn new(seed: u64) -> Random {
        Random(seed)
    }

    pub fn bits(&mut self) -> u64 {
        self.0 = self.0.wrapping_add(0x9e37_79b9_7f4a_7c15);
        let mut z = self.0;
        z = (z ^ (z >> 30)).wrapping_mul(0xbf58_476d_1ce4_e5b9);
        z = (z ^ (z >> 27)).wrapping_mul(0x94d0_49bb_1331_11eb);
        z ^ (z >> 31)
    }

    /// From `low` to `high`, both included.
    pub fn from(&mut self, low: u32, high: u32) -> u32 {
        let span = u64::from(high) - u64::from(low) + 1;
        low + (self.bits() % span) as u32
    }

    pub fn below(&mut self, bound: usize) -> usize {
        (self.bits() % bound as u64) as usize
    }

    pub fn one_in(&mut self, times: usize) -> bool {
        self.below(times) == 0
    }

    pub fn of<T: Copy>(&mut self, choices: &[T]) -> T {
        choices[self.below(choices.len())]
    }
}

fn common_divisor(a: u32, b: u32) -> u32 {
    if b == 0 {
        a
    } else {
        common_divisor(b, a % b)
    }
}

/// Roads at the corners of what is accepted: divisor, free, wave, jam, critical.
pub const CORNERS: [[u32; 5]; 9] = [
    [1, 1, 1, 2, 1],
    [5, 4, 1, 1000, 200],
    [4096, 4096, 4096, 1_000_000, 500_000],
    [4096, 1, 1, 1_000_000, 500_000],
    [4096, 1, 4096, 999_668, 999_424],
    [4096, 4096, 1, 999_668, 244],
    [4096, 4095, 4096, 8191, 4096],
    [4095, 3276, 819, 1_000_000, 200_000],
    [1, 1, 1, 1_000_000, 500_000],
];

/// Any road that is accepted, of these speeds and with a jam density up to `ceiling`: the balance p C = q (J - C) says
/// that C and J - C are q and p over their common divisor, times some k.
fn balanced(g: &mut Random, d: u32, p: u32, q: u32, ceiling: u32) -> [u32; 5] {
    let shared = common_divisor(p, q);
    let (c, rest) = (q / shared, p / shared);
    let most = ceiling / (c + rest);
    let k = match g.below(4) {
        0 => g.from(1, most.min(5)),
        1 => most,
        _ => g.from(1, most),
    };
    [d, p, q, k * (c + rest), k * c]
}

/// Any road that is accepted, often one at a corner.
pub fn good_road(g: &mut Random) -> [u32; 5] {
    if g.one_in(5) {
        return g.of(&CORNERS);
    }
    let d = match g.below(4) {
        0 => g.from(1, 10),
        1 => g.from(4090, 4096),
        _ => g.from(1, 4096),
    };
    let speed = |g: &mut Random| match g.below(4) {
        0 => d,
        1 => g.from(1, d.min(8)),
        _ => g.from(1, d),
    };
    let (p, q) = (speed(g), speed(g));
    balanced(g, d, p, q, 1_000_000)
}

/// An accepted road with so small a jam density that every change of a cell can be tried.
pub fn small_road(g: &mut Random) -> [u32; 5] {
    let (p, q) = (g.from(1, 9), g.from(1, 9));
    let d = g.from(p.max(q), 12);
    balanced(g, d, p, q, 40)
}

/// A density that moves, at the given speed over the divisor, some units and about a half.
pub fn near_half(g: &mut Random, road: &[u32; 5], speed: u32) -> u32 {
    let [divisor, _, _, jam, _] = *road;
    let units = g.from(0, (u64::from(jam) * u64::from(speed) / u64::from(divisor)) as u32);
    let halves = (2 * u64::from(units) + 1) * u64::from(divisor);
    let density = halves / (2 * u64::from(speed)) + g.below(3) as u64;
    density.saturating_sub(1).min(u64::from(jam)) as u32
}

/// A number that is wrong in most places of a road.
fn odd_number(g: &mut Random, near: u32) -> u32 {
    match g.below(7) {
        0 => 0,
        1 => near.wrapping_add(1),
        2 => near.wrapping_sub(1),
        3 => g.of(&[1, 2, 4096, 4097, 1_000_000, 1_000_001, 1 << 31, u32::MAX]),
        4 => g.from(0, 4200),
        5 => g.from(0, 1_100_000),
        _ => g.bits() as u32,
    }
}

/// Changes one of the five numbers, or all. What comes out may still be accepted: the reference judges.
pub fn damage_road(g: &mut Random, road: &mut [u32; 5]) {
    if g.one_in(8) {
        for number in road.iter_mut() {
            *number = odd_number(g, *number);
        }
    } else {
        let i = g.below(5);
        road[i] = odd_number(g, road[i]);
    }
}

/// A density from 0 to jam, often near a place where something changes.
pub fn density(g: &mut Random, road: &[u32; 5]) -> u32 {
    let [_, _, _, j, c] = *road;
    match g.below(8) {
        0 => g.of(&[0, 1, j, j - 1]).min(j),
        1 => g.of(&[c, c - 1, c + 1]).min(j),
        2 => g.from(0, c),
        3 => g.from(c, j),
        _ => g.from(0, j),
    }
}

/// A density downstream of `a`, often at the border of the letters W and D, where q (J - b) is p a.
fn neighbour(g: &mut Random, road: &[u32; 5], a: u32) -> u32 {
    let [_, p, q, j, _] = *road;
    let taken = u64::from(p) * u64::from(a) / u64::from(q);
    if g.one_in(3) && taken <= u64::from(j) {
        let border = j - taken as u32;
        return g.of(&[border, border.saturating_sub(1), border + 1]).min(j);
    }
    density(g, road)
}

/// So many densities of an accepted road, of one of several kinds of state.
pub fn densities(g: &mut Random, road: &[u32; 5], n: usize) -> Vec<u32> {
    let [_, _, _, j, c] = *road;
    match g.below(7) {
        0 => vec![density(g, road); n],
        1 => (0..n).map(|_| g.from(0, c)).collect(),
        2 => (0..n).map(|_| g.of(&[0, c, j])).collect(),
        3 => {
            let mut last = density(g, road);
            (0..n)
                .map(|_| {
                    last = neighbour(g, road, last);
                    last
                })
                .collect()
        }
        // Many on both sides of where a cell becomes queued; the others bring these into every mode that they can have.
        4 => (0..n).map(|_| if g.one_in(4) { density(g, road) } else { g.of(&[c, c + 1]).min(j) }).collect(),
        _ => (0..n).map(|_| density(g, road)).collect(),
    }
}

/// Moves every second cell to where a letter changes while its neighbours stay: about a border of one of its faces, or
/// half way between both, where as much down as up may do.
pub fn to_borders(g: &mut Random, road: &[u32; 5], cells: &mut [u32], up: u32, down: u32) {
    let r = reference::Road::new(*road);
    for i in (g.below(2)..cells.len()).step_by(2) {
        let left = if i == 0 { up } else { cells[i - 1] };
        let right = if i + 1 == cells.len() { down } else { cells[i + 1] };
        let borders = reference::borders(&r, i128::from(left), i128::from(right));
        let density = match g.below(2) {
            0 => borders.iter().sum::<i128>() / borders.len() as i128,
            _ => g.of(&borders) + g.of(&[-2, -1, 0, 1]),
        };
        cells[i] = density.clamp(0, r.j) as u32;
    }
}

/// A value above jam: just above, or far.
pub fn above(g: &mut Random, road: &[u32; 5]) -> u32 {
    let j = road[3].min(u32::MAX - 2);
    match g.below(4) {
        0 => j + 1,
        1 => j + 2,
        2 => u32::MAX,
        _ => g.from(j + 1, u32::MAX),
    }
}

/// Puts one or more values above jam into a list.
pub fn damage_values(g: &mut Random, road: &[u32; 5], values: &mut [u32]) {
    if values.is_empty() {
        return;
    }
    for _ in 0..g.from(1, 3) {
        let at = match g.below(4) {
            0 => 0,
            1 => values.len() - 1,
            _ => g.below(values.len()),
        };
        values[at] = above(g, road);
    }
}

/// Another length, near or far.
pub fn other_length(g: &mut Random, length: usize) -> usize {
    match g.below(5) {
        0 => 0,
        1 => length + 1,
        2 => length.saturating_sub(1),
        3 => g.below(600),
        _ => length + g.below(5000),
    }
}

pub fn resize(g: &mut Random, values: &mut Vec<u32>, length: usize) {
    let fill = if g.one_in(2) { 0 } else { g.bits() as u32 };
    values.resize(length, fill);
}

/// How many cells: few, any, at the ceiling.
pub fn size(g: &mut Random) -> usize {
    match g.below(10) {
        0 => 1,
        1 => 256,
        2 => g.of(&[2, 3, 4, 5, 7, 8, 9, 15, 16, 17, 31, 32, 33, 255]),
        3 | 4 => 1 + g.below(256),
        _ => 1 + g.below(12),
    }
}

/// A cap for the face between two densities: closed, open, about the units or the numerator that would move, any up to
/// jam, or above 2^31, where a signed comparison goes wrong.
pub fn cap(g: &mut Random, road: &[u32; 5], a: u32, b: u32) -> u32 {
    let r = reference::Road::new(*road);
    let numerator = reference::numerator(&r, i128::from(a), i128::from(b));
    let (units, whole) = (reference::units(&r, numerator) as u32, (numerator / r.d) as u32);
    match g.below(10) {
        0 => 0,
        1 => OPEN,
        2 => (1 << 31) + g.of(&[0, 1, 5, units]),
        3 => g.of(&[OPEN - 1, OPEN - units, (1 << 31) - 1]),
        4 => g.of(&[whole, whole + 1]),
        5 => g.from(0, road[3]),
        6 => units.saturating_sub(1),
        7 => units + 1,
        _ => units,
    }
}

/// Caps for a state, one a face: all open, all but a few, all the same, or each by itself.
pub fn caps(g: &mut Random, road: &[u32; 5], cells: &[u32], up: u32, down: u32) -> Vec<u32> {
    let n = cells.len();
    let before = |face: usize| if face == 0 { up } else { cells[face - 1] };
    let after = |face: usize| if face == n { down } else { cells[face] };
    let at = |g: &mut Random, face: usize| cap(g, road, before(face), after(face));
    let some = g.below(n + 1);
    match g.below(6) {
        0 => vec![OPEN; n + 1],
        1 => {
            let mut caps = vec![OPEN; n + 1];
            for face in [0, some, n] {
                if g.one_in(2) {
                    caps[face] = at(g, face);
                }
            }
            caps
        }
        2 => vec![at(g, some); n + 1],
        _ => (0..=n).map(|face| at(g, face)).collect(),
    }
}

/// A total that with so many units more is the largest, or next to it on either side, or past it by all of them.
pub fn full_total(g: &mut Random, own: u64) -> u64 {
    let most = u64::MAX - own;
    g.of(&[most, most.saturating_sub(1), most.saturating_add(1), most.saturating_add(2), u64::MAX])
}

/// A total that takes so many units more: none so far, few, many, or the most that it can be.
pub fn total_with_room(g: &mut Random, own: u64) -> u64 {
    let most = u64::MAX - own;
    match g.below(4) {
        0 => 0,
        1 => u64::from(g.from(0, 1_000_000)),
        2 => g.bits().min(most),
        _ => most,
    }
}

/// Totals for a forecast with these units of its own: each by itself with room for them, or about full.
pub fn totals(g: &mut Random, own: Units) -> Units {
    own.map(|own| if g.one_in(4) { full_total(g, own) } else { total_with_room(g, own) })
}

/// A legal word, by a walk.
pub fn legal_word(g: &mut Random, length: usize) -> Vec<u8> {
    let mut word: Vec<u8> = Vec::new();
    while word.len() < length {
        let next = g.below(3) as u8;
        if !word.last().is_some_and(|&last| illegal(last, next)) {
            word.push(next);
        }
    }
    word
}

/// A word for a state: legal, or the state's own, or that with a letter changed, or damaged in length or codes.
pub fn word(g: &mut Random, road: &[u32; 5], cells: &[u32], up: u32, down: u32) -> Vec<u8> {
    let n = cells.len();
    let own = reference::read(*road, cells, up, down, n + 1, n).map(|reading| reading.letters);
    let mut word = match own {
        Ok(own) if g.one_in(2) => own,
        _ => legal_word(g, n + 1),
    };
    match g.below(8) {
        0 | 1 => {
            let at = g.below(n + 1);
            word[at] = g.below(3) as u8;
        }
        2 => {
            for _ in 0..g.from(1, 3) {
                let at = g.below(n + 1);
                word[at] = match g.below(3) {
                    0 => 3,
                    1 => 255,
                    _ => g.bits() as u8,
                };
            }
        }
        3 => {
            let length = other_length(g, n + 1);
            let fill = g.from(0, 3) as u8;
            word.resize(length, fill);
        }
        _ => {}
    }
    word
}

/// A mode that is mostly none: a byte, a mode in the lowest byte of a larger number, or any number.
pub fn bad_mode(g: &mut Random) -> u32 {
    match g.below(3) {
        0 => g.bits() as u32 & 0xff,
        1 => (g.bits() as u32 & !0xff) | g.from(1, 7),
        _ => g.bits() as u32,
    }
}

/// An estimate for a candidate: whole, fractional, at the border, or no density at all.
pub fn estimate(g: &mut Random, road: &[u32; 5]) -> f64 {
    let j = f64::from(road[3]);
    match g.below(12) {
        0 => f64::from(g.from(0, road[3].max(1))) + 0.5,
        1 => j * (g.bits() >> 11) as f64 / (1u64 << 53) as f64,
        2 => g.of(&[0.0, -0.0, j, 1.0]),
        3 => g.of(&[f64::from_bits(1), f64::MIN_POSITIVE, f64::from_bits(0x000f_ffff_ffff_ffff), 1e-300, 0.1]),
        _ => f64::from(g.from(0, road[3])),
    }
}

/// An estimate that most roads refuse.
pub fn bad_estimate(g: &mut Random, road: &[u32; 5]) -> f64 {
    let j = f64::from(road[3]);
    match g.below(9) {
        0 => f64::NAN,
        1 => f64::INFINITY,
        2 => f64::NEG_INFINITY,
        3 => f64::from_bits(j.to_bits() + 1),
        4 => j + 1.0,
        5 => -f64::from_bits(1),
        6 => -1.0,
        7 => -f64::NAN,
        _ => f64::from_bits(g.bits()),
    }
}

/// A float from 0 on, or one of its neighbours up to two places away.
fn beside(g: &mut Random, x: f64) -> f64 {
    let bits = x.to_bits();
    f64::from_bits(g.of(&[bits, bits.saturating_sub(1), bits + 1, bits.saturating_sub(2), bits + 2]))
}

/// A number for a station: zero, subnormal, a power of two, any at all, or, mostly, up to `edge` or right beside it.
fn station_number(g: &mut Random, edge: f64) -> f64 {
    match g.below(12) {
        0 => g.of(&[0.0, -0.0]),
        1 => f64::from_bits(g.bits() >> (12 + g.below(52))),
        2 => f64::from_bits(u64::from(g.from(1, 2046)) << 52),
        3 => f64::from_bits(u64::from(g.from(1023 - 24, 1023 + 20)) << 52),
        4 => f64::from_bits(g.bits() >> 1),
        5..=7 => beside(g, edge),
        _ => edge * (g.bits() >> 11) as f64 / (1u64 << 53) as f64,
    }
}

/// A station that gives a density: whole, beside a whole one, or any.
pub fn station_density(g: &mut Random, road: &[u32; 5]) -> Station {
    let whole = f64::from(density(g, road));
    Station::Density(match g.below(4) {
        0 => whole,
        1 => beside(g, whole),
        _ => station_number(g, f64::from(road[3])),
    })
}

/// A station that gives a flow with a speed: often the flow of a density at that speed.
pub fn station_flow(g: &mut Random, road: &[u32; 5]) -> Station {
    let [d, p, _, j, c] = road.map(f64::from);
    let speed = station_number(g, p / d);
    let whole = f64::from(density(g, road));
    Station::FlowAndSpeed(
        match g.below(4) {
            0 => beside(g, (whole * speed).abs()),
            1 => beside(g, (j * speed).abs()),
            2 => whole * speed,
            _ => station_number(g, p * c / d),
        },
        speed,
    )
}

/// A station that gives a speed alone: often that of a whole density above critical.
pub fn station_speed(g: &mut Random, road: &[u32; 5]) -> Station {
    let [d, p, q, j, _] = road.map(f64::from);
    let queued = f64::from(g.from(road[4] + 1, road[3]));
    Station::Speed(match g.below(3) {
        0 => beside(g, q * (j - queued) / (queued * d)),
        _ => station_number(g, p / d),
    })
}

/// Puts a number into a station's place that is mostly refused.
pub fn damage_station(g: &mut Random, road: &[u32; 5], reading: &mut Station) {
    let bad = bad_estimate(g, road);
    match reading {
        Station::FlowAndSpeed(flow, _) if g.one_in(2) => *flow = bad,
        Station::Density(number) | Station::FlowAndSpeed(_, number) | Station::Speed(number) => *number = bad,
    }
}
