//! Refusals.

use crate::Fault;
use std::error::Error;
use std::fmt;

/// A refusal: why, where, and for [`Fault::RowsShort`] the rows needed. What the place counts is said at each function.
///
/// ```
/// use gamulisyan::{read, Edition, Fault};
/// let refusal = read(Edition::D, b"\xFE\x00").unwrap_err();
/// assert_eq!((refusal.fault, refusal.place), (Fault::InputEnds, 2));
/// assert_eq!(refusal.to_string(), "2 at 2: input ends inside identifier or length, or before the declared end");
/// ```
#[derive(Clone, Copy, Debug, PartialEq, Eq)]
pub struct Refusal {
    pub fault: Fault,
    pub place: usize,
    /// The rows needed, of a reading refused with 14; else 0.
    pub rows: usize,
}

impl fmt::Display for Refusal {
    fn fmt(&self, to: &mut fmt::Formatter<'_>) -> fmt::Result {
        write!(to, "{} at {}: {}", self.fault.number(), self.place, self.fault)
    }
}

impl Error for Refusal {}

/// An answer of an entry: nothing for 0, else the refusal.
///
/// # Panics
/// If the archive answers a number that this crate does not know: the two are of different releases.
pub(crate) fn accepted(answer: u32, place: usize, rows: usize) -> Result<(), Refusal> {
    if answer == 0 {
        return Ok(());
    }
    let fault = Fault::from_number(answer).expect("crate and archive are of one release");
    Err(Refusal { fault, place, rows })
}
