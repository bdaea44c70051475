//! Rows to headers.

use crate::entries;
use crate::refusal::accepted;
use crate::{Edition, Fault, Refusal, Row};

/// The header that is written from rows and the pool whose bytes they view: for rows just read, their input.
///
/// Refused with 15 at the row, from 0, that is wrong, and with 5 at the row of the envelope; 16 is not given.
///
/// ```
/// use gamulisyan::{read, write, Edition};
/// let message = b"\xFE\x00\x0F\x12\x20\x31\x11\x16\x19\x15\x37\x62\x59\x20\x01";
/// let header = read(Edition::D, message)?;
/// assert_eq!(write(Edition::D, &header.rows, message)?, message);
/// # Ok::<(), gamulisyan::Refusal>(())
/// ```
pub fn write(edition: Edition, rows: &[Row], pool: &[u8]) -> Result<Vec<u8>, Refusal> {
    let needed = match write_into(edition, rows, pool, &mut []) {
        Err(refusal) if refusal.fault == Fault::OutputShort => refusal.place,
        Err(refusal) => return Err(refusal),
        Ok(written) => written,
    };
    let mut output = vec![0; needed];
    write_into(edition, rows, pool, &mut output)?;
    Ok(output)
}

/// The same over the front of `output`: the bytes written. Refused also with 16, at the bytes needed. A refusal changes nothing.
///
/// ```
/// use gamulisyan::{read, write_into, Edition, Fault};
/// let message = b"\xFE\x00\x0F\x12\x20\x31\x11\x16\x19\x15\x37\x62\x59\x20\x01";
/// let rows = read(Edition::D, message)?.rows;
/// let mut output = [0; 14];
/// let refusal = write_into(Edition::D, &rows, message, &mut output).unwrap_err();
/// assert_eq!((refusal.fault, refusal.place), (Fault::OutputShort, 15));
/// # Ok::<(), gamulisyan::Refusal>(())
/// ```
pub fn write_into(edition: Edition, rows: &[Row], pool: &[u8], output: &mut [u8]) -> Result<usize, Refusal> {
    let (numbers, count) = entries::numbers(rows);
    // SAFETY: all slices are valid, and `output` overlaps no other.
    let written =
        unsafe { entries::gamulisyan_write(edition.number(), numbers, count, pool.as_ptr(), pool.len(), output.as_mut_ptr(), output.len()) };
    accepted(written.answer, written.place, written.rows).map(|()| written.place)
}
