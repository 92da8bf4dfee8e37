//! The road and the ceilings.

use crate::ffi;

/// A uniform road, and the units in which it is measured.
///
/// Accepted are roads with `free` and `wave` from 1 to `divisor`, `critical` from 1 to `jam - 1`, and
/// `free * critical = wave * (jam - critical)`, up to the ceilings. The calls judge that; a `Road` may hold any numbers.
///
/// ```
/// let mut road = welgadou::Road { divisor: 5, free: 4, wave: 1, jam: 1000, critical: 200 };
/// assert!(welgadou::candidate(&road, 7, 0.0, 0.0, 0.0).is_ok());
/// road.critical = 201;
/// assert_eq!(welgadou::candidate(&road, 7, 0.0, 0.0, 0.0).unwrap_err().number, 4);
/// ```
#[derive(Clone, Copy, Debug, PartialEq, Eq, Hash)]
pub struct Road {
    /// The denominator of both speeds.
    pub divisor: u32,
    /// Free traffic moves `free / divisor` cells a step.
    pub free: u32,
    /// The edge of a jam moves back `wave / divisor` cells a step.
    pub wave: u32,
    /// The density of standing traffic, in units a cell.
    pub jam: u32,
    /// The density at which the flow is greatest, in units a cell.
    pub critical: u32,
}

/// The ceilings, as the library has them.
impl Road {
    /// The largest number of cells in a list.
    ///
    /// ```
    /// let road = welgadou::Road { divisor: 5, free: 4, wave: 1, jam: 1000, critical: 200 };
    /// let most = welgadou::Road::cells_ceiling() as usize;
    /// let (cells, caps, mut out) = (vec![0; most + 1], vec![welgadou::OPEN; most + 2], vec![0; most + 1]);
    /// assert!(welgadou::settle(&road, &cells[..most], 0, 0, 1, &caps[..most + 1], &mut out[..most]).is_ok());
    /// assert_eq!(welgadou::settle(&road, &cells, 0, 0, 1, &caps, &mut out).unwrap_err().number, 5);
    /// ```
    pub fn cells_ceiling() -> u32 {
        ffi::cells_ceiling()
    }

    /// The largest horizon, in steps.
    ///
    /// ```
    /// let road = welgadou::Road { divisor: 5, free: 4, wave: 1, jam: 1000, critical: 200 };
    /// let most = welgadou::Road::horizon_ceiling();
    /// assert!(welgadou::settle(&road, &[0], 0, 0, most, &[welgadou::OPEN; 2], &mut [0]).is_ok());
    /// assert_eq!(welgadou::settle(&road, &[0], 0, 0, most + 1, &[welgadou::OPEN; 2], &mut [0]).unwrap_err().number, 6);
    /// ```
    pub fn horizon_ceiling() -> u32 {
        ffi::horizon_ceiling()
    }

    /// The largest divisor.
    ///
    /// ```
    /// let most = welgadou::Road::divisor_ceiling();
    /// let mut road = welgadou::Road { divisor: most, free: 4, wave: 1, jam: 1000, critical: 200 };
    /// assert!(welgadou::settle(&road, &[0], 0, 0, 1, &[welgadou::OPEN; 2], &mut [0]).is_ok());
    /// road.divisor = most + 1;
    /// assert_eq!(welgadou::settle(&road, &[0], 0, 0, 1, &[welgadou::OPEN; 2], &mut [0]).unwrap_err().number, 1);
    /// ```
    pub fn divisor_ceiling() -> u32 {
        ffi::divisor_ceiling()
    }

    /// The largest jam density.
    ///
    /// ```
    /// let most = welgadou::Road::jam_ceiling();
    /// let mut road = welgadou::Road { divisor: 1, free: 1, wave: 1, jam: most, critical: most / 2 };
    /// assert!(welgadou::settle(&road, &[0], 0, 0, 1, &[welgadou::OPEN; 2], &mut [0]).is_ok());
    /// road.jam = most + 1;
    /// assert_eq!(welgadou::settle(&road, &[0], 0, 0, 1, &[welgadou::OPEN; 2], &mut [0]).unwrap_err().number, 3);
    /// ```
    pub fn jam_ceiling() -> u32 {
        ffi::jam_ceiling()
    }

    /// The largest number of cells in a word count.
    ///
    /// ```
    /// let most = welgadou::Road::count_ceiling();
    /// assert!(welgadou::count(most).is_ok());
    /// assert_eq!(welgadou::count(most + 1).unwrap_err().number, 15);
    /// ```
    pub fn count_ceiling() -> u32 {
        ffi::count_ceiling()
    }
}
