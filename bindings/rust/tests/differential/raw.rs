//! The archive's functions as C sees them, with patterns in everything that a call may write and guards around it.

use std::ptr;

include!("../../src/declared.rs");

/// A number that stands where a call may write, and that no call writes there.
const PATTERN: u64 = 0xa5c3_5a3c_96e1_7b2d;

/// A list is lent as a pointer; of length 0, as a null pointer.
fn lent<T>(list: &[T]) -> *const T {
    if list.is_empty() {
        ptr::null()
    } else {
        list.as_ptr()
    }
}

/// An output between two guards, all filled with the pattern.
struct Buffer<T> {
    all: Vec<T>,
    pattern: T,
}

impl<T: Copy + PartialEq + std::fmt::Debug> Buffer<T> {
    const GUARD: usize = 8;

    fn new(length: usize, pattern: T) -> Buffer<T> {
        Buffer { all: vec![pattern; length + 2 * Self::GUARD], pattern }
    }

    fn lent(&mut self) -> *mut T {
        if self.all.len() == 2 * Self::GUARD {
            ptr::null_mut()
        } else {
            self.all[Self::GUARD..].as_mut_ptr()
        }
    }

    /// The contents, once the guards are seen whole.
    fn contents(&self) -> &[T] {
        let end = self.all.len() - Self::GUARD;
        for guard in [&self.all[..Self::GUARD], &self.all[end..]] {
            assert!(guard.iter().all(|x| *x == self.pattern), "written beside an output");
        }
        &self.all[Self::GUARD..end]
    }

    fn untouched(&self) -> bool {
        self.contents().iter().all(|x| *x == self.pattern)
    }
}

/// What a call answered: its values, or number and place. A refused call must have written the place alone, an accepted
/// one 0 into it.
fn answer<V>(number: u32, place: u32, untouched: bool, values: impl FnOnce() -> V) -> Result<V, (u32, u32)> {
    if number == 0 {
        assert_eq!(place, 0, "the place of an accepted call");
        Ok(values())
    } else {
        assert!(untouched, "refusal {number} at {place}, but an output was written");
        Err((number, place))
    }
}

const WORD: u32 = PATTERN as u32;

type Refused = (u32, u32);

/// The cells, the call's own units and the totals, of both entered and left.
#[allow(clippy::too_many_arguments, clippy::type_complexity)]
pub fn forecast(
    [d, p, q, j, c]: [u32; 5],
    cells: &[u32],
    up: &[u32],
    down: &[u32],
    horizon: u32,
    caps: &[u32],
    totals: [u64; 2],
    out: usize,
) -> Result<(Vec<u32>, [u64; 2], [u64; 2]), Refused> {
    let (mut out_buffer, mut entered, mut left, mut place) = (Buffer::new(out, WORD), PATTERN, PATTERN, WORD);
    let [mut total_entered, mut total_left] = totals;
    // SAFETY: every pointer is that of a list beside its length, or of one local value.
    #[rustfmt::skip]
    let number = unsafe {
        welgadou_forecast(
            d, p, q, j, c, lent(cells), cells.len(), lent(up), up.len(), lent(down), down.len(), horizon, lent(caps),
            caps.len(), out_buffer.lent(), out, &mut entered, &mut left, &mut total_entered, &mut total_left, &mut place,
        )
    };
    let (own, increased) = ([entered, left], [total_entered, total_left]);
    let untouched = out_buffer.untouched() && own == [PATTERN; 2] && increased == totals;
    answer(number, place, untouched, || (out_buffer.contents().to_vec(), own, increased))
}

pub fn settle(
    [d, p, q, j, c]: [u32; 5],
    cells: &[u32],
    up: u32,
    down: u32,
    horizon: u32,
    caps: &[u32],
    out: usize,
) -> Result<(Vec<u32>, u32, u32), Refused> {
    let (mut out_buffer, mut settled, mut steps, mut place) = (Buffer::new(out, WORD), WORD, WORD, WORD);
    // SAFETY: every pointer is that of a list beside its length, or of one local value.
    #[rustfmt::skip]
    let number = unsafe {
        welgadou_settle(
            d, p, q, j, c, lent(cells), cells.len(), up, down, horizon, lent(caps), caps.len(), out_buffer.lent(), out,
            &mut settled, &mut steps, &mut place,
        )
    };
    let untouched = out_buffer.untouched() && settled == WORD && steps == WORD;
    answer(number, place, untouched, || (out_buffer.contents().to_vec(), settled, steps))
}

#[allow(clippy::type_complexity)]
pub fn read(
    [d, p, q, j, c]: [u32; 5],
    cells: &[u32],
    up: u32,
    down: u32,
    letters: usize,
    modes: usize,
) -> Result<(Vec<u8>, Vec<u8>, Vec<u32>, u32), Refused> {
    let (mut letters_buffer, mut modes_buffer) = (Buffer::new(letters, 0xa5u8), Buffer::new(modes, 0xa5u8));
    let (mut counts, mut queued, mut place) = (Buffer::new(7, WORD), WORD, WORD);
    // SAFETY: every pointer is that of a list beside its length, of seven counts, or of one local value.
    #[rustfmt::skip]
    let number = unsafe {
        welgadou_read(
            d, p, q, j, c, lent(cells), cells.len(), up, down, letters_buffer.lent(), letters, modes_buffer.lent(),
            modes, counts.lent(), &mut queued, &mut place,
        )
    };
    let untouched = letters_buffer.untouched() && modes_buffer.untouched() && counts.untouched() && queued == WORD;
    answer(number, place, untouched, || {
        (letters_buffer.contents().to_vec(), modes_buffer.contents().to_vec(), counts.contents().to_vec(), queued)
    })
}

pub fn fit([d, p, q, j, c]: [u32; 5], cells: &[u32], up: u32, down: u32, word: &[u8]) -> Result<(u32, u32), Refused> {
    let (mut holds, mut face, mut place) = (WORD, WORD, WORD);
    // SAFETY: every pointer is that of a list beside its length, or of one local value.
    #[rustfmt::skip]
    let number = unsafe {
        welgadou_fit(
            d, p, q, j, c, lent(cells), cells.len(), up, down, lent(word), word.len(), &mut holds, &mut face,
            &mut place,
        )
    };
    answer(number, place, holds == WORD && face == WORD, || (holds, face))
}

pub fn rows(
    [d, p, q, j, c]: [u32; 5],
    cells: &[u32],
    up: u32,
    down: u32,
    word: &[u8],
    out: usize,
) -> Result<Vec<i64>, Refused> {
    let (mut out_buffer, mut place) = (Buffer::new(out, PATTERN as i64), WORD);
    // SAFETY: every pointer is that of a list beside its length, or of one local value.
    #[rustfmt::skip]
    let number = unsafe {
        welgadou_rows(
            d, p, q, j, c, lent(cells), cells.len(), up, down, lent(word), word.len(), out_buffer.lent(), out,
            &mut place,
        )
    };
    answer(number, place, out_buffer.untouched(), || out_buffer.contents().to_vec())
}

pub fn candidate([d, p, q, j, c]: [u32; 5], mode: u32, estimates: [f64; 3]) -> Result<f64, Refused> {
    let (mut numerator, mut place) = (f64::from_bits(PATTERN), WORD);
    let [left, own, right] = estimates;
    // SAFETY: both pointers are those of local values.
    let number = unsafe { welgadou_candidate(d, p, q, j, c, mode, left, own, right, &mut numerator, &mut place) };
    answer(number, place, numerator.to_bits() == PATTERN, || numerator)
}

pub fn count(cells: u32) -> Result<u64, Refused> {
    let (mut words, mut place) = (PATTERN, WORD);
    // SAFETY: both pointers are those of local values.
    let number = unsafe { welgadou_count(cells, &mut words, &mut place) };
    answer(number, place, words == PATTERN, || words)
}

pub fn station_density([d, p, q, j, c]: [u32; 5], density: f64) -> Result<f64, Refused> {
    let (mut estimate, mut place) = (f64::from_bits(PATTERN), WORD);
    // SAFETY: both pointers are those of local values.
    let number = unsafe { welgadou_station_density(d, p, q, j, c, density, &mut estimate, &mut place) };
    answer(number, place, estimate.to_bits() == PATTERN, || estimate)
}

pub fn station_flow([d, p, q, j, c]: [u32; 5], flow: f64, speed: f64) -> Result<f64, Refused> {
    let (mut estimate, mut place) = (f64::from_bits(PATTERN), WORD);
    // SAFETY: both pointers are those of local values.
    let number = unsafe { welgadou_station_flow(d, p, q, j, c, flow, speed, &mut estimate, &mut place) };
    answer(number, place, estimate.to_bits() == PATTERN, || estimate)
}

pub fn station_speed([d, p, q, j, c]: [u32; 5], speed: f64) -> Result<f64, Refused> {
    let (mut estimate, mut place) = (f64::from_bits(PATTERN), WORD);
    // SAFETY: both pointers are those of local values.
    let number = unsafe { welgadou_station_speed(d, p, q, j, c, speed, &mut estimate, &mut place) };
    answer(number, place, estimate.to_bits() == PATTERN, || estimate)
}

pub fn nearest(
    [d, p, q, j, c]: [u32; 5],
    cells: &[u32],
    up: u32,
    down: u32,
    numbers: usize,
    changes: usize,
) -> Result<(Vec<u32>, Vec<i32>), Refused> {
    let (mut numbers_buffer, mut changes_buffer) = (Buffer::new(numbers, WORD), Buffer::new(changes, WORD as i32));
    let mut place = WORD;
    // SAFETY: every pointer is that of a list beside its length, or of one local value.
    #[rustfmt::skip]
    let number = unsafe {
        welgadou_nearest(
            d, p, q, j, c, lent(cells), cells.len(), up, down, numbers_buffer.lent(), numbers, changes_buffer.lent(),
            changes, &mut place,
        )
    };
    let untouched = numbers_buffer.untouched() && changes_buffer.untouched();
    answer(number, place, untouched, || (numbers_buffer.contents().to_vec(), changes_buffer.contents().to_vec()))
}
