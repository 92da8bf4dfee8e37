//! A traffic forecast for one uniform road, proved: safe functions over the archive `libwelgadou.a`.
//!
//! Welgadou works the triangular Godunov scheme (the cell transmission model) on whole numbers. Each call judges its
//! input by itself and answers with a [`Refusal`], a number and a place, where it does not accept it; the slices and
//! totals that it would have written then keep their contents. No input panics. What is proved of the calls, and what the
//! words unit, cell, face, cap, letter, word, mode and station mean, stands in `include/welgadou.h`; this crate adds types
//! and nothing else.
//!
//! Build the archive with `./archive` in the repository, or set `WELGADOU_LIB_DIR` to the folder, by its
//! absolute path, in which you keep `libwelgadou.a`.
//!
//! ```
//! use welgadou::{forecast, Road, Totals, OPEN};
//!
//! let road = Road { divisor: 5, free: 4, wave: 1, jam: 1000, critical: 200 };
//! let caps = [OPEN; 4]; // no roadworks: all faces are open
//! let mut totals = Totals::default(); // since commissioning: keep them from call to call
//! let mut out = [0; 3];
//! let moved = forecast(&road, &[300, 150, 700], &[100], &[0], 1, &caps, &mut totals, &mut out)?;
//! assert_eq!(out, [220, 250, 600]);
//! assert_eq!((moved.entered, moved.left), (80, 160));
//! assert_eq!((totals.entered, totals.left), (80, 160));
//! # Ok::<(), welgadou::Refusal>(())
//! ```
#![deny(unsafe_code)]
#![forbid(missing_docs, unsafe_op_in_unsafe_fn, non_ascii_idents, unused_must_use, improper_ctypes)]

#[allow(unsafe_code)]
mod ffi;
pub mod letter;
mod level1;
mod level2;
mod level3;
mod refusal;
mod road;

pub use level1::{forecast, settle, Moved, Settlement, Totals, OPEN};
pub use level2::{candidate, count, fit, read, rows, Counts, Fit};
pub use level3::{nearest, station, StationReading};
pub use refusal::Refusal;
pub use road::Road;

/// The version of the archive that is linked, as one number: ten thousand a major, a hundred a minor version.
///
/// ```
/// let version = welgadou::version();
/// println!("welgadou {}.{}.{}", version / 10_000, version / 100 % 100, version % 100);
/// ```
pub fn version() -> u32 {
    ffi::version()
}

/// The README's example, run with the documentation's.
#[cfg(doctest)]
#[doc = include_str!("../../../README.md")]
struct Readme;
