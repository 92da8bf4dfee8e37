//! The archive's functions, and one safe form of each. All `unsafe` of this crate is here.
//!
//! Why every call is safe: a slice stands for as many valid values as its length says, a `&mut` for one; nothing that is
//! borrowed by `&mut` overlaps another argument; and the borrows last until the call returns. That is all the archive
//! asks of a caller in memory. What it asks of floating point (rounding to nearest, subnormals kept, no traps) is the
//! state that Rust code runs in. Any value is then a valid input: the archive judges it by itself.

use crate::{Moved, Refusal, Road, Totals};

include!("declared.rs");

/// Number 0 is an accepted call.
fn judged(number: u32, place: u32) -> Result<(), Refusal> {
    if number == 0 {
        Ok(())
    } else {
        Err(Refusal { number, place })
    }
}

pub(crate) fn version() -> u32 {
    // SAFETY: no argument.
    unsafe { welgadou_version() }
}

pub(crate) fn cells_ceiling() -> u32 {
    // SAFETY: no argument.
    unsafe { welgadou_cells_ceiling() }
}

pub(crate) fn horizon_ceiling() -> u32 {
    // SAFETY: no argument.
    unsafe { welgadou_horizon_ceiling() }
}

pub(crate) fn divisor_ceiling() -> u32 {
    // SAFETY: no argument.
    unsafe { welgadou_divisor_ceiling() }
}

pub(crate) fn jam_ceiling() -> u32 {
    // SAFETY: no argument.
    unsafe { welgadou_jam_ceiling() }
}

pub(crate) fn count_ceiling() -> u32 {
    // SAFETY: no argument.
    unsafe { welgadou_count_ceiling() }
}

#[allow(clippy::too_many_arguments)]
pub(crate) fn forecast(
    r: &Road,
    cells: &[u32],
    upstream: &[u32],
    downstream: &[u32],
    horizon: u32,
    caps: &[u32],
    out: &mut [u32],
    moved: &mut Moved,
    totals: &mut Totals,
) -> Result<(), Refusal> {
    let mut place = 0;
    // SAFETY: each pointer comes from a borrow, with that borrow's length (see the top of this file).
    #[rustfmt::skip]
    let number = unsafe {
        welgadou_forecast(
            r.divisor, r.free, r.wave, r.jam, r.critical, cells.as_ptr(), cells.len(),
            upstream.as_ptr(), upstream.len(), downstream.as_ptr(), downstream.len(), horizon,
            caps.as_ptr(), caps.len(), out.as_mut_ptr(), out.len(), &mut moved.entered, &mut moved.left,
            &mut totals.entered, &mut totals.left, &mut place,
        )
    };
    judged(number, place)
}

#[allow(clippy::too_many_arguments)]
pub(crate) fn settle(
    r: &Road,
    cells: &[u32],
    upstream: u32,
    downstream: u32,
    horizon: u32,
    caps: &[u32],
    out: &mut [u32],
    settled: &mut u32,
    steps: &mut u32,
) -> Result<(), Refusal> {
    let mut place = 0;
    // SAFETY: each pointer comes from a borrow, with that borrow's length (see the top of this file).
    #[rustfmt::skip]
    let number = unsafe {
        welgadou_settle(
            r.divisor, r.free, r.wave, r.jam, r.critical, cells.as_ptr(), cells.len(), upstream, downstream, horizon,
            caps.as_ptr(), caps.len(), out.as_mut_ptr(), out.len(), settled, steps, &mut place,
        )
    };
    judged(number, place)
}

#[allow(clippy::too_many_arguments)]
pub(crate) fn read(
    r: &Road,
    cells: &[u32],
    upstream: u32,
    downstream: u32,
    letters: &mut [u8],
    modes: &mut [u8],
    counts: &mut [u32; 7],
    queued: &mut u32,
) -> Result<(), Refusal> {
    let mut place = 0;
    // SAFETY: each pointer comes from a borrow, with that borrow's length; `counts` has the seven numbers that the
    // archive writes without asking for a length (see the top of this file).
    #[rustfmt::skip]
    let number = unsafe {
        welgadou_read(
            r.divisor, r.free, r.wave, r.jam, r.critical, cells.as_ptr(), cells.len(), upstream, downstream,
            letters.as_mut_ptr(), letters.len(), modes.as_mut_ptr(), modes.len(), counts.as_mut_ptr(), queued,
            &mut place,
        )
    };
    judged(number, place)
}

pub(crate) fn fit(
    r: &Road,
    cells: &[u32],
    upstream: u32,
    downstream: u32,
    word: &[u8],
    holds: &mut u32,
    face: &mut u32,
) -> Result<(), Refusal> {
    let mut place = 0;
    // SAFETY: each pointer comes from a borrow, with that borrow's length (see the top of this file).
    #[rustfmt::skip]
    let number = unsafe {
        welgadou_fit(
            r.divisor, r.free, r.wave, r.jam, r.critical, cells.as_ptr(), cells.len(), upstream, downstream,
            word.as_ptr(), word.len(), holds, face, &mut place,
        )
    };
    judged(number, place)
}

pub(crate) fn rows(
    r: &Road,
    cells: &[u32],
    upstream: u32,
    downstream: u32,
    word: &[u8],
    out: &mut [i64],
) -> Result<(), Refusal> {
    let mut place = 0;
    // SAFETY: each pointer comes from a borrow, with that borrow's length (see the top of this file).
    #[rustfmt::skip]
    let number = unsafe {
        welgadou_rows(
            r.divisor, r.free, r.wave, r.jam, r.critical, cells.as_ptr(), cells.len(), upstream, downstream,
            word.as_ptr(), word.len(), out.as_mut_ptr(), out.len(), &mut place,
        )
    };
    judged(number, place)
}

pub(crate) fn candidate(
    r: &Road,
    mode: u8,
    left: f64,
    own: f64,
    right: f64,
    numerator: &mut f64,
) -> Result<(), Refusal> {
    let mut place = 0;
    // SAFETY: both pointers come from borrows of one value (see the top of this file).
    #[rustfmt::skip]
    let number = unsafe {
        welgadou_candidate(
            r.divisor, r.free, r.wave, r.jam, r.critical, u32::from(mode), left, own, right, numerator, &mut place,
        )
    };
    judged(number, place)
}

pub(crate) fn count(cells: u32, words: &mut u64) -> Result<(), Refusal> {
    let mut place = 0;
    // SAFETY: both pointers come from borrows of one value (see the top of this file).
    let number = unsafe { welgadou_count(cells, words, &mut place) };
    judged(number, place)
}

pub(crate) fn station_density(r: &Road, density: f64, estimate: &mut f64) -> Result<(), Refusal> {
    let mut place = 0;
    // SAFETY: both pointers come from borrows of one value (see the top of this file).
    #[rustfmt::skip]
    let number = unsafe {
        welgadou_station_density(r.divisor, r.free, r.wave, r.jam, r.critical, density, estimate, &mut place)
    };
    judged(number, place)
}

pub(crate) fn station_flow(r: &Road, flow: f64, speed: f64, estimate: &mut f64) -> Result<(), Refusal> {
    let mut place = 0;
    // SAFETY: both pointers come from borrows of one value (see the top of this file).
    #[rustfmt::skip]
    let number = unsafe {
        welgadou_station_flow(r.divisor, r.free, r.wave, r.jam, r.critical, flow, speed, estimate, &mut place)
    };
    judged(number, place)
}

pub(crate) fn station_speed(r: &Road, speed: f64, estimate: &mut f64) -> Result<(), Refusal> {
    let mut place = 0;
    // SAFETY: both pointers come from borrows of one value (see the top of this file).
    #[rustfmt::skip]
    let number = unsafe {
        welgadou_station_speed(r.divisor, r.free, r.wave, r.jam, r.critical, speed, estimate, &mut place)
    };
    judged(number, place)
}

pub(crate) fn nearest(
    r: &Road,
    cells: &[u32],
    upstream: u32,
    downstream: u32,
    numbers: &mut [u32],
    changes: &mut [i32],
) -> Result<(), Refusal> {
    let mut place = 0;
    // SAFETY: each pointer comes from a borrow, with that borrow's length (see the top of this file).
    #[rustfmt::skip]
    let number = unsafe {
        welgadou_nearest(
            r.divisor, r.free, r.wave, r.jam, r.critical, cells.as_ptr(), cells.len(), upstream, downstream,
            numbers.as_mut_ptr(), numbers.len(), changes.as_mut_ptr(), changes.len(), &mut place,
        )
    };
    judged(number, place)
}
