//! Level 2: reading, fit test, row prediction, candidate prediction, word count.

use crate::{ffi, Refusal, Road};

/// How many cells of a state are in each mode, and how many are queued.
///
/// ```
/// let road = welgadou::Road { divisor: 5, free: 4, wave: 1, jam: 1000, critical: 200 };
/// let counts = welgadou::read(&road, &[300, 150, 700], 100, 0, &mut [0; 4], &mut [0; 3])?;
/// assert_eq!(counts, welgadou::Counts { modes: [0, 1, 1, 0, 0, 1, 0], queued: 2 });
/// # Ok::<(), welgadou::Refusal>(())
/// ```
#[derive(Clone, Copy, Debug, PartialEq, Eq, Hash)]
pub struct Counts {
    /// The cells in mode 1, 2, up to 7. Their sum is the number of cells.
    pub modes: [u32; 7],
    /// How many cells are denser than critical; a cell at critical is not queued. Up to version 0.6 it was how many are in
    /// the modes 1, 2 and 3.
    pub queued: u32,
}

/// Writes the letter of each face (one more than `cells`) and the mode of each cell. Refuses with the numbers 1 to 5 and
/// 8 to 11.
///
/// ```
/// use welgadou::letter::{D, L, W};
///
/// let road = welgadou::Road { divisor: 5, free: 4, wave: 1, jam: 1000, critical: 200 };
/// let (mut letters, mut modes) = ([0; 4], [0; 3]);
/// let counts = welgadou::read(&road, &[300, 150, 700], 100, 0, &mut letters, &mut modes)?;
/// assert_eq!(letters, [D, L, W, L]);
/// assert_eq!(modes, [6, 3, 2]);
/// assert_eq!(counts.queued, 2);
///
/// // The first two cells, each by itself between the same neighbours: 300 is above critical, 150 is not.
/// assert_eq!(welgadou::read(&road, &[300], 100, 150, &mut [0; 2], &mut [0])?.queued, 1);
/// assert_eq!(welgadou::read(&road, &[150], 300, 700, &mut [0; 2], &mut [0])?.queued, 0);
/// # Ok::<(), welgadou::Refusal>(())
/// ```
pub fn read(
    road: &Road,
    cells: &[u32],
    upstream: u32,
    downstream: u32,
    letters: &mut [u8],
    modes: &mut [u8],
) -> Result<Counts, Refusal> {
    let (mut counts, mut queued) = ([0; 7], 0);
    ffi::read(road, cells, upstream, downstream, letters, modes, &mut counts, &mut queued)?;
    Ok(Counts { modes: counts, queued })
}

/// Whether a state has a given word.
///
/// ```
/// use welgadou::letter::{D, L};
///
/// let road = welgadou::Road { divisor: 5, free: 4, wave: 1, jam: 1000, critical: 200 };
/// assert_eq!(welgadou::fit(&road, &[150], 100, 0, &[D, D])?, welgadou::Fit::Holds);
/// assert_eq!(welgadou::fit(&road, &[150], 100, 0, &[D, L])?, welgadou::Fit::FailsAt(1));
/// # Ok::<(), welgadou::Refusal>(())
/// ```
#[derive(Clone, Copy, Debug, PartialEq, Eq, Hash)]
pub enum Fit {
    /// Every face has the word's letter.
    Holds,
    /// The lowest face that has another letter, counted from 0.
    FailsAt(u32),
}

/// Tests whether a state has the legal word `word`, one letter longer than `cells`. Refuses with the numbers 1 to 5 and
/// 9 to 12.
///
/// ```
/// use welgadou::letter::{D, L, W};
/// use welgadou::Fit;
///
/// let road = welgadou::Road { divisor: 5, free: 4, wave: 1, jam: 1000, critical: 200 };
/// let cells = [300, 150, 700];
/// assert_eq!(welgadou::fit(&road, &cells, 100, 0, &[D, L, W, L])?, Fit::Holds);
/// assert_eq!(welgadou::fit(&road, &cells, 100, 0, &[D, L, D, L])?, Fit::FailsAt(2));
/// // D may not follow W.
/// let refusal = welgadou::fit(&road, &cells, 100, 0, &[D, L, W, D]).unwrap_err();
/// assert_eq!((refusal.number, refusal.place), (12, 3));
/// # Ok::<(), welgadou::Refusal>(())
/// ```
pub fn fit(road: &Road, cells: &[u32], upstream: u32, downstream: u32, word: &[u8]) -> Result<Fit, Refusal> {
    let (mut holds, mut face) = (0, 0);
    ffi::fit(road, cells, upstream, downstream, word, &mut holds, &mut face)?;
    Ok(if holds != 0 { Fit::Holds } else { Fit::FailsAt(face) })
}

/// Writes the value of each cell's row by the legal word `word`: with the state's own word the next density times the
/// divisor, before rounding, of a step with open caps; of a capped step at each cell where neither face's cap binds, that
/// is where the flow numerators of both its faces are at most cap x divisor. Refuses with the numbers 1 to 5 and 8 to 12.
///
/// ```
/// use welgadou::letter::{D, L, W};
///
/// let road = welgadou::Road { divisor: 5, free: 4, wave: 1, jam: 1000, critical: 200 };
/// let mut out = [0; 3];
/// welgadou::rows(&road, &[300, 150, 700], 100, 0, &[D, L, W, L], &mut out)?;
/// assert_eq!(out, [1100, 1250, 3000]);
///
/// // With a foreign word a value may be negative.
/// let mut out = [0];
/// welgadou::rows(&road, &[0], 0, 0, &[D, W], &mut out)?;
/// assert_eq!(out, [-1000]);
/// # Ok::<(), welgadou::Refusal>(())
/// ```
pub fn rows(
    road: &Road,
    cells: &[u32],
    upstream: u32,
    downstream: u32,
    word: &[u8],
    out: &mut [i64],
) -> Result<(), Refusal> {
    ffi::rows(road, cells, upstream, downstream, word, out)
}

/// The row of `mode` applied to estimates of three neighbouring densities: the own density after one step, times the
/// divisor. Refuses with the numbers 1 to 4, 13 and 14.
///
/// ```
/// let road = welgadou::Road { divisor: 5, free: 4, wave: 1, jam: 1000, critical: 200 };
/// assert_eq!(welgadou::candidate(&road, 6, 100.0, 300.0, 150.0)?, 1100.0);
/// assert_eq!(welgadou::candidate(&road, 6, 100.25, 299.5, 150.0)?, 1098.5);
///
/// let refusal = welgadou::candidate(&road, 6, 100.0, f64::NAN, -1.0).unwrap_err();
/// assert_eq!((refusal.number, refusal.place), (14, 2));
/// # Ok::<(), welgadou::Refusal>(())
/// ```
pub fn candidate(road: &Road, mode: u8, left: f64, own: f64, right: f64) -> Result<f64, Refusal> {
    let mut numerator = 0.0;
    ffi::candidate(road, mode, left, own, right, &mut numerator)?;
    Ok(numerator)
}

/// How many legal words a road of `cells` cells has. Refuses with the number 15.
///
/// ```
/// assert_eq!(welgadou::count(2)?, 16);
/// assert_eq!(welgadou::count(20)?, 34206521);
/// # Ok::<(), welgadou::Refusal>(())
/// ```
pub fn count(cells: u32) -> Result<u64, Refusal> {
    let mut words = 0;
    ffi::count(cells, &mut words)?;
    Ok(words)
}
