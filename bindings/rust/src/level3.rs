//! Level 3: station readings, and how near the next mode is.

use crate::{ffi, Refusal, Road};

/// What a station, a detector on the road, gives: a density, or a flow with a speed, or a speed alone. Densities are in
/// units a cell, flows in units a step, speeds in cells a step, fractions allowed.
///
/// ```
/// use welgadou::StationReading;
///
/// let road = welgadou::Road { divisor: 5, free: 4, wave: 1, jam: 1000, critical: 200 };
/// let readings = [StationReading::Density(250.0), StationReading::FlowAndSpeed { flow: 150.0, speed: 0.6 }];
/// for reading in readings {
///     assert_eq!(welgadou::station(&road, reading), welgadou::station(&road, StationReading::Speed(0.6)));
/// }
/// ```
#[derive(Clone, Copy, Debug, PartialEq)]
pub enum StationReading {
    /// A density, which is its own estimate, bit for bit.
    Density(f64),
    /// A flow and a speed other than 0: the estimate is `flow / speed`.
    FlowAndSpeed {
        /// The units that pass in a step.
        flow: f64,
        /// The cells that they move in a step.
        speed: f64,
    },
    /// A speed `s` below the free speed: the estimate is `wave * jam / (s * divisor + wave)`, from `critical` to
    /// `jam`, both included.
    Speed(f64),
}

/// The estimate of the density at a station, from 0 to `jam`: [`candidate`](crate::candidate) accepts it in each of its
/// three places, on the same road. Each operation is rounded once. Refuses with the numbers 1 to 4, 16, 17
/// (a lone speed only) and 18 (a density, or a flow and a speed, only).
///
/// ```
/// use welgadou::StationReading;
///
/// let road = welgadou::Road { divisor: 5, free: 4, wave: 1, jam: 1000, critical: 200 };
/// assert_eq!(welgadou::station(&road, StationReading::FlowAndSpeed { flow: 80.0, speed: 0.8 })?, 100.0);
/// let estimate = welgadou::station(&road, StationReading::Speed(0.2))?;
/// assert_eq!(estimate, 500.0);
/// assert!(welgadou::candidate(&road, 1, estimate, estimate, estimate).is_ok());
///
/// // Traffic of every density up to critical moves at the free speed, 4/5 of a cell a step.
/// let refusal = welgadou::station(&road, StationReading::Speed(0.8)).unwrap_err();
/// assert_eq!((refusal.number, refusal.place), (17, 0));
/// # Ok::<(), welgadou::Refusal>(())
/// ```
pub fn station(road: &Road, reading: StationReading) -> Result<f64, Refusal> {
    let mut estimate = 0.0;
    match reading {
        StationReading::Density(density) => ffi::station_density(road, density, &mut estimate)?,
        StationReading::FlowAndSpeed { flow, speed } => ffi::station_flow(road, flow, speed, &mut estimate)?,
        StationReading::Speed(speed) => ffi::station_speed(road, speed, &mut estimate)?,
    }
    Ok(estimate)
}

/// Ranks the cells by how small a change of the one cell's density alters the state's word, all other cells and both
/// ends as they are. A cell's change is the smallest in size with which its density stays from 0 to `jam` and the word
/// does not stay as it was, and below 0, for fewer units, where as much down as up would do. `numbers` gets the cells,
/// numbered from 1, the one with the smallest change in size first and cells with changes of one size in their order;
/// `changes` gets the change of the cell at the same place. Both are as long as `cells`. Refuses with the numbers 1 to 5
/// and 8 to 11.
///
/// ```
/// use welgadou::letter::{D, L, W};
/// use welgadou::Fit;
///
/// let road = welgadou::Road { divisor: 5, free: 4, wave: 1, jam: 1000, critical: 200 };
/// let (mut numbers, mut changes) = ([0; 3], [0; 3]);
/// welgadou::nearest(&road, &[300, 150, 700], 100, 0, &mut numbers, &mut changes)?;
/// assert_eq!((numbers, changes), ([2, 1, 3], [51, -100, -300]));
/// // Cell 2: with 50 more the state keeps its word, with 51 more it does not.
/// assert_eq!(welgadou::fit(&road, &[300, 200, 700], 100, 0, &[D, L, W, L])?, Fit::Holds);
/// assert_eq!(welgadou::fit(&road, &[300, 201, 700], 100, 0, &[D, L, W, L])?, Fit::FailsAt(1));
///
/// let refusal = welgadou::nearest(&road, &[300, 150, 700], 100, 0, &mut numbers, &mut changes[..2]).unwrap_err();
/// assert_eq!((refusal.number, refusal.place), (8, 0));
/// assert_eq!((numbers, changes), ([2, 1, 3], [51, -100, -300]));
/// # Ok::<(), welgadou::Refusal>(())
/// ```
pub fn nearest(
    road: &Road,
    cells: &[u32],
    upstream: u32,
    downstream: u32,
    numbers: &mut [u32],
    changes: &mut [i32],
) -> Result<(), Refusal> {
    ffi::nearest(road, cells, upstream, downstream, numbers, changes)
}
