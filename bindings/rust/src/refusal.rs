//! Refusals: a number and a place, with the words of the table.

use std::error::Error;
use std::fmt;

/// Why a call did not accept its input: the first number in the call's order of checks that applies, and its place.
/// Each call names its numbers in this order.
///
/// ```
/// let road = welgadou::Road { divisor: 5, free: 4, wave: 1, jam: 1000, critical: 200 };
/// let mut out = [7; 2];
/// let refusal = welgadou::settle(&road, &[300, 1001], 0, 0, 9, &[welgadou::OPEN; 3], &mut out).unwrap_err();
/// assert_eq!((refusal.number, refusal.place), (9, 2));
/// assert_eq!(refusal.to_string(), "refusal 9 at cell 2: a cell is above the jam density");
/// assert_eq!(out, [7; 2]);
/// ```
#[derive(Clone, Copy, Debug, PartialEq, Eq, Hash)]
pub struct Refusal {
    /// The number, from 1 on.
    pub number: u32,
    /// The place: a cell (from 1), a step or a face (from 0; n + 1 for a word of another length), an estimate (1 to 3), and 0
    /// where the number has none.
    pub place: u32,
}

/// What the place of a number is, and the number's words.
fn words(number: u32) -> (&'static str, &'static str) {
    match number {
        1 => ("place", "the divisor is 0 or above its ceiling"),
        2 => ("place", "the free speed or the wave speed is 0 or above the divisor"),
        3 => ("place", "the jam density or the critical density is out of its range"),
        4 => ("place", "free x critical differs from wave x (jam - critical)"),
        5 => ("place", "there are no cells, or more than their ceiling"),
        6 => ("place", "the horizon is above its ceiling"),
        7 => ("place", "a list of ends is not as long as the horizon"),
        8 => ("place", "an output has not the length that the call asks for"),
        9 => ("cell", "a cell is above the jam density"),
        10 => ("step", "an upstream end is above the jam density"),
        11 => ("step", "a downstream end is above the jam density"),
        12 => ("face", "the word is not one letter longer than the cells, has an unknown code or an illegal pair"),
        13 => ("place", "the mode is not 1 to 7"),
        14 => ("estimate", "an estimate is not a number, is below 0 or is above the jam density"),
        15 => ("place", "the cells of a word count are above their ceiling"),
        16 => ("place", "a station's number is not a number, below 0 or infinite, or a speed beside a flow is 0"),
        17 => ("place", "a station's lone speed times the divisor, rounded, is not below free: no single density"),
        18 => ("place", "a station's estimate is below 0 or above the jam density"),
        19 => ("place", "a total would pass 18,446,744,073,709,551,615"),
        20 => ("place", "the list of caps is not one longer than the cells"),
        _ => ("place", "the refusal table has no such number"),
    }
}

impl fmt::Display for Refusal {
    fn fmt(&self, f: &mut fmt::Formatter<'_>) -> fmt::Result {
        let (kind, reason) = words(self.number);
        write!(f, "refusal {} at {} {}: {}", self.number, kind, self.place, reason)
    }
}

impl Error for Refusal {}
