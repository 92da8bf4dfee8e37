//! Level 1: forecast and settling run.

use crate::{ffi, Refusal, Road};

/// The cap of a face that roadworks do not narrow: no face moves so many units in a step.
///
/// ```
/// use welgadou::{Totals, OPEN};
///
/// let road = welgadou::Road { divisor: 5, free: 4, wave: 1, jam: 1000, critical: 200 };
/// let left = |caps: [u32; 2]| {
///     let moved = welgadou::forecast(&road, &[101], &[0], &[0], 1, &caps, &mut Totals::default(), &mut [0]);
///     moved.map(|moved| moved.left)
/// };
/// assert_eq!((left([OPEN, OPEN])?, left([OPEN, 30])?, left([OPEN, 0])?), (81, 30, 0));
/// # Ok::<(), welgadou::Refusal>(())
/// ```
pub const OPEN: u32 = 4_294_967_295;

/// The units that one forecast moved over its two ends, in all its steps together.
///
/// ```
/// let road = welgadou::Road { divisor: 5, free: 4, wave: 1, jam: 1000, critical: 200 };
/// let mut totals = welgadou::Totals { entered: 5000, left: 4000 };
/// let (start, mut out) = ([101], [0]);
/// let moved = welgadou::forecast(&road, &start, &[0], &[0], 1, &[welgadou::OPEN; 2], &mut totals, &mut out)?;
/// assert_eq!(moved, welgadou::Moved { entered: 0, left: 81 });
/// assert_eq!(u64::from(start[0]) + moved.entered, u64::from(out[0]) + moved.left);
/// # Ok::<(), welgadou::Refusal>(())
/// ```
#[derive(Clone, Copy, Debug, PartialEq, Eq, Hash)]
pub struct Moved {
    /// The units over the face before the first cell.
    pub entered: u64,
    /// The units over the face after the last cell.
    pub left: u64,
}

/// The units that have moved over the two ends of a road since commissioning, when both were 0, the default. Each
/// [`forecast`] increases them by its own units. `u64::MAX` is the largest total.
///
/// ```
/// use welgadou::{Totals, OPEN};
///
/// let road = welgadou::Road { divisor: 5, free: 4, wave: 1, jam: 1000, critical: 200 };
/// let (mut totals, mut out) = (Totals { entered: 0, left: u64::MAX - 81 }, [0]);
/// welgadou::forecast(&road, &[101], &[0], &[0], 1, &[OPEN; 2], &mut totals, &mut out)?;
/// assert_eq!((totals, out), (Totals { entered: 0, left: u64::MAX }, [20]));
///
/// let refusal = welgadou::forecast(&road, &[101], &[100], &[0], 1, &[OPEN; 2], &mut totals, &mut out).unwrap_err();
/// assert_eq!((refusal.number, refusal.place), (19, 0));
/// assert_eq!((totals, out), (Totals { entered: 0, left: u64::MAX }, [20]));
/// # Ok::<(), welgadou::Refusal>(())
/// ```
#[derive(Clone, Copy, Debug, Default, PartialEq, Eq, Hash)]
pub struct Totals {
    /// The units over the face before the first cell.
    pub entered: u64,
    /// The units over the face after the last cell.
    pub left: u64,
}

/// Makes `horizon` steps from `cells`, step t with the ends `upstream[t]` and `downstream[t]`, writes the densities after
/// the last one into `out`, which is as long as `cells`, and increases `totals` by the units that it hands back. In each
/// step face i moves at most `caps[i]` units: one cap a face, so that `caps` is one longer than `cells`; 0 closes a face,
/// [`OPEN`] leaves it open, and any number is accepted. Refuses with the numbers 1 to 8, 20, 9 to 11 and 19, judged in
/// this order; `totals` and `out` are then as they were.
///
/// Keep one variable for the totals, `Totals::default()` at commissioning, and hand it to every forecast together with the
/// last accepted one's cells: the units at commissioning plus those entered are then the units on the road plus those left.
/// A settling run counts nothing: to go on from its cells, begin with totals of 0 again.
///
/// ```
/// let road = welgadou::Road { divisor: 5, free: 4, wave: 1, jam: 1000, critical: 200 };
/// let mut totals = welgadou::Totals::default();
/// let (open, start, mut first, mut second) = ([welgadou::OPEN; 4], [300, 150, 700], [0; 3], [0; 3]);
/// welgadou::forecast(&road, &start, &[100], &[0], 1, &open, &mut totals, &mut first)?;
/// let moved = welgadou::forecast(&road, &first, &[100], &[0], 1, &open, &mut totals, &mut second)?;
/// assert_eq!((first, second), ([220, 250, 600], [150, 320, 520]));
/// assert_eq!((moved.entered, moved.left), (80, 160));
/// assert_eq!((totals.entered, totals.left), (160, 320));
/// let units = |cells: [u32; 3]| cells.map(u64::from).iter().sum::<u64>();
/// assert_eq!(units(start) + totals.entered, units(second) + totals.left);
///
/// let refusal = welgadou::forecast(&road, &second, &[100], &[0, 0], 2, &open, &mut totals, &mut first).unwrap_err();
/// assert_eq!(refusal.number, 7);
/// assert_eq!((totals.entered, totals.left), (160, 320));
/// assert_eq!(first, [220, 250, 600]);
///
/// // Roadworks between the first two cells and at the exit; the cap of the last face is missing in the second call.
/// let caps = [welgadou::OPEN, 50, welgadou::OPEN, 100];
/// welgadou::forecast(&road, &start, &[100], &[0], 1, &caps, &mut totals, &mut first)?;
/// assert_eq!(first, [330, 140, 660]);
/// let refusal = welgadou::forecast(&road, &start, &[100], &[0], 1, &caps[..3], &mut totals, &mut first).unwrap_err();
/// assert_eq!((refusal.number, refusal.place), (20, 0));
/// # Ok::<(), welgadou::Refusal>(())
/// ```
#[allow(clippy::too_many_arguments)]
pub fn forecast(
    road: &Road,
    cells: &[u32],
    upstream: &[u32],
    downstream: &[u32],
    horizon: u32,
    caps: &[u32],
    totals: &mut Totals,
    out: &mut [u32],
) -> Result<Moved, Refusal> {
    let mut moved = Moved { entered: 0, left: 0 };
    ffi::forecast(road, cells, upstream, downstream, horizon, caps, out, &mut moved, totals)?;
    Ok(moved)
}

/// The report of a settling run.
///
/// ```
/// let road = welgadou::Road { divisor: 5, free: 4, wave: 1, jam: 1000, critical: 200 };
/// let mut out = [0];
/// let report = welgadou::settle(&road, &[2], 0, 0, 9, &[welgadou::OPEN; 2], &mut out)?;
/// assert_eq!(report, welgadou::Settlement { settled: true, steps: 1 });
/// assert_eq!(out, [0]);
/// # Ok::<(), welgadou::Refusal>(())
/// ```
#[derive(Clone, Copy, Debug, PartialEq, Eq, Hash)]
pub struct Settlement {
    /// Whether a step before the horizon was found still.
    pub settled: bool,
    /// The steps that lead to the state handed back: those before the first still one, else the whole horizon.
    pub steps: u32,
}

/// Steps from `cells` with one pair of ends until a step would be still (it would keep every density) or `horizon` steps
/// are made, and writes the state reached into `out`, which is as long as `cells`. The steps keep to `caps`, one a face,
/// as those of a [`forecast`] do. Refuses with the numbers 1 to 6, 8, 20 and 9 to 11, judged in this order.
///
/// A settled state is fixed: any number of further steps with the same ends and caps keeps it. Settled or not, `out`
/// holds what a [`forecast`] over `horizon` makes of the same cells, with copies of the pair for its ends, the same caps
/// and totals of 0. Up to version 0.8 a step was still where every face kept its letter and the cells kept their sum.
///
/// ```
/// let road = welgadou::Road { divisor: 5, free: 4, wave: 1, jam: 1000, critical: 200 };
/// let mut out = [0; 2];
/// let report = welgadou::settle(&road, &[300, 150], 100, 0, 1, &[welgadou::OPEN; 3], &mut out)?;
/// assert!(!report.settled);
/// assert_eq!(report.steps, 1);
/// assert_eq!(out, [220, 190]);
///
/// // With all faces closed nothing moves.
/// let report = welgadou::settle(&road, &[300, 150], 100, 0, 1, &[0; 3], &mut out)?;
/// assert_eq!(report, welgadou::Settlement { settled: true, steps: 0 });
/// assert_eq!(out, [300, 150]);
///
/// // One unit moves to cell 2 and then away. Its first step keeps the sum of the cells and is not still.
/// let road = welgadou::Road { divisor: 1, free: 1, wave: 1, jam: 2, critical: 1 };
/// let (caps, mut totals, mut full) = ([welgadou::OPEN; 3], welgadou::Totals::default(), [1; 2]);
/// let report = welgadou::settle(&road, &[1, 0], 0, 0, 9, &caps, &mut out)?;
/// assert_eq!(report, welgadou::Settlement { settled: true, steps: 2 });
/// assert_eq!(out, [0, 0]);
/// welgadou::forecast(&road, &[1, 0], &[0; 9], &[0; 9], 9, &caps, &mut totals, &mut full)?;
/// assert_eq!(out, full);
/// # Ok::<(), welgadou::Refusal>(())
/// ```
pub fn settle(
    road: &Road,
    cells: &[u32],
    upstream: u32,
    downstream: u32,
    horizon: u32,
    caps: &[u32],
    out: &mut [u32],
) -> Result<Settlement, Refusal> {
    let (mut settled, mut steps) = (0, 0);
    ffi::settle(road, cells, upstream, downstream, horizon, caps, out, &mut settled, &mut steps)?;
    Ok(Settlement { settled: settled != 0, steps })
}
