//! Which value of a parameter stands.

use crate::entries;
use crate::refusal::accepted;
use crate::{Edition, Parameter, Refusal, Row};

/// The row of a parameter's present value: of several envelopes the first value stands, an empty one too. None if no envelope has one.
///
/// Refused with 17 at 0 for [`Parameter::Own`], then with 15 and 5 as [`write`](crate::write) refuses the rows.
///
/// ```
/// use gamulisyan::{present, read, Edition, Parameter};
/// let message = b"\xFE\x00\x0F\x12\x20\x31\x11\x16\x19\x15\x37\x62\x59\x20\x01";
/// let rows = read(Edition::D, message)?.rows;
/// assert_eq!(present(Edition::D, &rows, message, Parameter::Date)?, Some(2));
/// assert_eq!(present(Edition::D, &rows, message, Parameter::To)?, None);
/// # Ok::<(), gamulisyan::Refusal>(())
/// ```
pub fn present(edition: Edition, rows: &[Row], pool: &[u8], parameter: Parameter) -> Result<Option<usize>, Refusal> {
    let (numbers, count) = entries::numbers(rows);
    // SAFETY: all slices are valid, and nothing is changed.
    let found = unsafe { entries::gamulisyan_present(edition.number(), numbers, count, pool.as_ptr(), pool.len(), parameter.number()) };
    accepted(found.answer, found.place, found.rows)?;
    Ok((found.place < rows.len()).then_some(found.place))
}

/// What a lookup found: the row, or none; and how many rows were looked at.
#[derive(Clone, Copy, Debug, PartialEq, Eq)]
pub struct Found {
    pub row: Option<usize>,
    pub looked: usize,
}

/// The same by hops over the rows and words of one reading, which are trusted and not checked: quicker, for whoever asks often.
///
/// Refused with 17 at 0 for [`Parameter::Own`]; with 14 at 0 for fewer than sixteen words; with 15 at the first row looked at whose skip
/// number is not above its own number or passes the row count.
///
/// ```
/// use gamulisyan::{lookup, read, Edition, Parameter};
/// let message = b"\xFE\x00\x0F\x12\x20\x31\x11\x16\x19\x15\x37\x62\x59\x20\x01";
/// let header = read(Edition::D, message)?;
/// let found = lookup(&header.rows, &header.words, Parameter::Date)?;
/// assert_eq!((found.row, found.looked), (Some(2), 3));
/// # Ok::<(), gamulisyan::Refusal>(())
/// ```
pub fn lookup(rows: &[Row], words: &[u32], parameter: Parameter) -> Result<Found, Refusal> {
    let (numbers, count) = entries::numbers(rows);
    // SAFETY: all slices are valid, and nothing is changed.
    let found = unsafe { entries::gamulisyan_lookup(numbers, count, words.as_ptr(), words.len(), parameter.number()) };
    accepted(found.answer, found.place, 0)?;
    Ok(Found { row: (found.place < rows.len()).then_some(found.place), looked: found.rows })
}
