//! The letter codes of a word.
//!
//! ```
//! use welgadou::letter::{D, L, W};
//!
//! // One cell with free traffic upstream of it and a queue downstream.
//! let road = welgadou::Road { divisor: 5, free: 4, wave: 1, jam: 1000, critical: 200 };
//! assert_eq!(welgadou::fit(&road, &[150], 100, 900, &[D, W])?, welgadou::Fit::Holds);
//! // L is the face at which a queue dissolves.
//! assert_eq!(welgadou::fit(&road, &[300], 100, 0, &[D, L])?, welgadou::Fit::Holds);
//! # Ok::<(), welgadou::Refusal>(())
//! ```

/// The downstream side decides the flow: it is above critical, and takes less than the upstream side sends.
///
/// ```
/// assert_eq!(welgadou::letter::W, 0);
/// ```
pub const W: u8 = 0;

/// The flow is the greatest there is: the upstream side is above critical, the downstream side is not.
///
/// ```
/// assert_eq!(welgadou::letter::L, 1);
/// ```
pub const L: u8 = 1;

/// The upstream side decides the flow: it is not above critical, and the downstream side takes all that it sends.
///
/// ```
/// assert_eq!(welgadou::letter::D, 2);
/// ```
pub const D: u8 = 2;
