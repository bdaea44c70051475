//! A new envelope in front of a header.

use crate::entries;
use crate::refusal::accepted;
use crate::{Edition, Fault, Header, Refusal, Row, WORDS};

/// The header at the front of `input` with a new extension envelope in front, given as rows and the pool that they view: the joined bytes,
/// behind which the caller puts the payload, and their reading.
///
/// Refused with the reader's faults but 14 for the old header, at its byte; with 15 at a row of the new table; with 5 at row 0 for a
/// seventeenth envelope or a new one over the limit. 14 and 16 are not given, since what is needed is lent.
///
/// ```
/// use gamulisyan::{read, relay, Edition};
/// let old = b"\xFE\x00\x0F\x12\x20\x31\x11\x16\x19\x15\x37\x62\x59\x20\x01payload";
/// let hop = b"\xFD\x00\x11a\x00\x20\x31\x11\x16\x19\x15\x37\x62\x59\x20\x01\x01";
/// let with_hop = [&hop[..], &old[..]].concat();
/// let mut table = read(Edition::D, &with_hop)?.rows;
/// table.truncate(3);
/// let (bytes, header) = relay(Edition::D, old, &table, hop)?;
/// assert_eq!(bytes, with_hop[..32]);
/// assert_eq!(header, read(Edition::D, &bytes)?);
/// # Ok::<(), gamulisyan::Refusal>(())
/// ```
pub fn relay(edition: Edition, input: &[u8], table: &[Row], pool: &[u8]) -> Result<(Vec<u8>, Header), Refusal> {
    let mut words = [0; WORDS];
    let short = match relay_into(edition, input, table, pool, &mut [], &mut words, &mut []) {
        Err(refusal) if refusal.fault == Fault::RowsShort => refusal,
        Err(refusal) => return Err(refusal),
        Ok(_) => unreachable!("a joined header has rows, and none are lent"),
    };
    let mut rows = vec![Row::default(); short.rows];
    let mut output = vec![0; short.place];
    let length = relay_into(edition, input, table, pool, &mut rows, &mut words, &mut output)?.0;
    Ok((output, Header { rows, words, length }))
}

/// The same into rows, words and output of the caller's: the joined header's length and its row count. Refused also with 14 at that length
/// with the rows needed, then with 16 at the bytes needed. A refusal changes nothing lent.
///
/// ```
/// use gamulisyan::{read, relay_into, Edition, Fault, Row, WORDS};
/// let old = b"\xFE\x00\x0F\x12\x20\x31\x11\x16\x19\x15\x37\x62\x59\x20\x01";
/// let hop = b"\xFD\x00\x11a\x00\x20\x31\x11\x16\x19\x15\x37\x62\x59\x20\x01\x01";
/// let table = &read(Edition::D, &[&hop[..], &old[..]].concat())?.rows[..3];
/// let (mut rows, mut words, mut output) = ([Row::default(); 6], [0; WORDS], [0; 32]);
/// let short = relay_into(Edition::D, old, table, hop, &mut rows[..5], &mut words, &mut output).unwrap_err();
/// assert_eq!((short.fault, short.place, short.rows), (Fault::RowsShort, 32, 6));
/// assert_eq!(relay_into(Edition::D, old, table, hop, &mut rows, &mut words, &mut output)?, (32, 6));
/// # Ok::<(), gamulisyan::Refusal>(())
/// ```
pub fn relay_into(
    edition: Edition,
    input: &[u8],
    table: &[Row],
    pool: &[u8],
    rows: &mut [Row],
    words: &mut [u32; WORDS],
    output: &mut [u8],
) -> Result<(usize, usize), Refusal> {
    let (table_numbers, table_count) = entries::numbers(table);
    let (numbers, count) = entries::numbers_lent(rows);
    // SAFETY: all slices are valid, and those that are lent overlap no other.
    let joined = unsafe {
        entries::gamulisyan_relay(
            edition.number(),
            input.as_ptr(),
            input.len(),
            table_numbers,
            table_count,
            pool.as_ptr(),
            pool.len(),
            numbers,
            count,
            words.as_mut_ptr(),
            words.len(),
            output.as_mut_ptr(),
            output.len(),
        )
    };
    accepted(joined.answer, joined.place, joined.rows).map(|()| (joined.place, joined.rows))
}
