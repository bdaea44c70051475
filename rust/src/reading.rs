//! Headers to rows.

use crate::entries::{self, Reader};
use crate::refusal::accepted;
use crate::{Edition, Editions, Kind, Parameter, Refusal};

/// The words that a reading borrows: one for each envelope that a header can have.
pub const WORDS: usize = 16;

/// The rows that are lent at first: enough for most headers, and a longer one costs a second call.
const USUAL_ROWS: usize = 64;

/// A row of a table. `start` and `length` say where its bytes are in the input or pool; `skip` is the row behind all that belongs to it.
#[derive(Clone, Copy, Debug, Default, PartialEq, Eq, Hash)]
#[repr(C)]
pub struct Row {
    pub kind: u32,
    pub level: u32,
    pub start: u32,
    pub length: u32,
    pub skip: u32,
}

impl Row {
    /// The kind by name; none for a number that is no kind's, which only rows made by hand have.
    pub fn kind(&self) -> Option<Kind> {
        Kind::from_number(self.kind)
    }

    /// The row's bytes in its input or pool; none if they are not all there.
    pub fn bytes<'pool>(&self, pool: &'pool [u8]) -> Option<&'pool [u8]> {
        let start = self.start as usize;
        pool.get(start..start.checked_add(self.length as usize)?)
    }
}

/// The presence word of an envelope: which parameters it has, the value in its fixed head counted.
#[derive(Clone, Copy, Debug, Default, PartialEq, Eq, Hash)]
pub struct Presence(pub u32);

impl Presence {
    /// Whether the envelope has this parameter. [`Parameter::Date`] has no bit, and is never there.
    pub fn has(self, parameter: Parameter) -> bool {
        self.0.checked_shr(parameter.number()).map_or(false, |bits| bits & 1 == 1)
    }

    /// How many different parameters the envelope has: the ones of the word.
    ///
    /// ```
    /// assert_eq!(gamulisyan::Presence(0b1_0100).count(), 2);
    /// ```
    pub fn count(self) -> u32 {
        // SAFETY: the entry takes any number and touches no memory.
        unsafe { entries::gamulisyan_ones(self.0) }
    }
}

/// A header as it was read: its rows, a word for each envelope and behind them zeroes, and its length.
#[derive(Clone, Debug, PartialEq, Eq)]
pub struct Header {
    pub rows: Vec<Row>,
    pub words: [u32; WORDS],
    pub length: usize,
}

impl Header {
    /// The presence word of each envelope, in their order.
    ///
    /// ```
    /// # use gamulisyan::{read, Edition, Parameter};
    /// let message = b"\xFE\x00\x0F\x12\x20\x31\x11\x16\x19\x15\x37\x62\x59\x20\x01";
    /// let presence = read(Edition::B, message)?.presence();
    /// assert_eq!(presence.len(), 1);
    /// assert!(presence[0].has(Parameter::Representation) && !presence[0].has(Parameter::To));
    /// # Ok::<(), gamulisyan::Refusal>(())
    /// ```
    pub fn presence(&self) -> Vec<Presence> {
        let opens = |row: &&Row| row.kind == Kind::ExtensionOpens.number() || row.kind == Kind::BaseOpens.number();
        let envelopes = self.rows.iter().filter(opens).count();
        self.words[..envelopes].iter().copied().map(Presence).collect()
    }
}

/// The header at the front of `input`, in edition `edition`.
///
/// Refused with the reader's faults, at a byte of the input; 14 is not given, since the rows needed are lent. A header made to hurt has a
/// row for nearly each byte: [`read_within`] bounds what is lent.
///
/// ```
/// use gamulisyan::{read, Edition, Kind};
/// let message = b"\xFE\x00\x0F\x12\x20\x31\x11\x16\x19\x15\x37\x62\x59\x20\x01payload";
/// let header = read(Edition::D, message)?;
/// assert_eq!(header.length, 15);
/// assert_eq!(header.rows[2].kind(), Some(Kind::DateAbsolute));
/// # Ok::<(), gamulisyan::Refusal>(())
/// ```
pub fn read(edition: Edition, input: &[u8]) -> Result<Header, Refusal> {
    read_within(edition, input, usize::MAX)
}

/// The same, with at most `most` rows lent: a header that needs more is refused with 14, at its payload's first byte, with the rows needed.
///
/// ```
/// use gamulisyan::{read_within, Edition, Fault};
/// let message = b"\xFE\x00\x0F\x12\x20\x31\x11\x16\x19\x15\x37\x62\x59\x20\x01";
/// let refusal = read_within(Edition::D, message, 2).unwrap_err();
/// assert_eq!((refusal.fault, refusal.place, refusal.rows), (Fault::RowsShort, 15, 3));
/// ```
pub fn read_within(edition: Edition, input: &[u8], most: usize) -> Result<Header, Refusal> {
    lend(most, |rows, words| read_by(entries::gamulisyan_read, edition, input, rows, words))
}

/// [`read`] for senders that write a byte block's length in more bytes than it needs: 11 is never the refusal.
///
/// ```
/// use gamulisyan::{read, read_tolerant, write, Edition, Fault};
/// let wide = b"\xFE\x00\x15\x12\x20\x31\x11\x16\x19\x15\x37\x62\x59\x20\x0B\x19\x00\x00\x00\x00\x01";
/// assert_eq!(read(Edition::D, wide).unwrap_err().fault, Fault::LengthFormWide);
/// let header = read_tolerant(Edition::D, wide)?;
/// let short = write(Edition::D, &header.rows, wide)?;
/// assert_eq!((wide.len(), short.len()), (21, 18));
/// # Ok::<(), gamulisyan::Refusal>(())
/// ```
pub fn read_tolerant(edition: Edition, input: &[u8]) -> Result<Header, Refusal> {
    lend(usize::MAX, |rows, words| read_by(entries::gamulisyan_read_tolerant, edition, input, rows, words))
}

/// [`read_into`] by the plain engine, for a fixed stack: no function of it calls itself. Its answers, rows and words are the same.
///
/// ```
/// use gamulisyan::{read_plain_into, Edition, Row, WORDS};
/// let message = b"\xFE\x00\x0F\x12\x20\x31\x11\x16\x19\x15\x37\x62\x59\x20\x01";
/// let (mut rows, mut words) = ([Row::default(); 8], [0; WORDS]);
/// assert_eq!(read_plain_into(Edition::B, message, &mut rows, &mut words)?, (15, 3));
/// # Ok::<(), gamulisyan::Refusal>(())
/// ```
pub fn read_plain_into(edition: Edition, input: &[u8], rows: &mut [Row], words: &mut [u32; WORDS]) -> Result<(usize, usize), Refusal> {
    read_by(entries::gamulisyan_read_plain, edition, input, rows, words)
}

/// The same, tolerantly, as [`read_tolerant`] reads.
pub fn read_plain_tolerant_into(edition: Edition, input: &[u8], rows: &mut [Row], words: &mut [u32; WORDS]) -> Result<(usize, usize), Refusal> {
    read_by(entries::gamulisyan_read_plain_tolerant, edition, input, rows, words)
}

/// [`read`] into rows and words of the caller's: the header's length, and how many rows were read. A refusal changes nothing lent.
///
/// ```
/// use gamulisyan::{read_into, Edition, Row, WORDS};
/// let message = b"\xFE\x00\x0F\x12\x20\x31\x11\x16\x19\x15\x37\x62\x59\x20\x01";
/// let (mut rows, mut words) = ([Row::default(); 8], [0; WORDS]);
/// assert_eq!(read_into(Edition::B, message, &mut rows, &mut words)?, (15, 3));
/// # Ok::<(), gamulisyan::Refusal>(())
/// ```
pub fn read_into(edition: Edition, input: &[u8], rows: &mut [Row], words: &mut [u32; WORDS]) -> Result<(usize, usize), Refusal> {
    read_by(entries::gamulisyan_read, edition, input, rows, words)
}

/// The header at the front of `input`, which has no label, and the editions that allow it. What neither allows is refused as edition D
/// refuses it.
///
/// ```
/// use gamulisyan::{which, Edition, Editions};
/// let forward = b"\xFE\x00\x0F\x12\x21\x31\x11\x16\x19\x15\x37\x62\x59\x20\x01";
/// let (_, editions) = which(forward)?;
/// assert_eq!(editions, Editions::D);
/// assert!(!editions.allow(Edition::B));
/// # Ok::<(), gamulisyan::Refusal>(())
/// ```
pub fn which(input: &[u8]) -> Result<(Header, Editions), Refusal> {
    let mut editions = 0;
    let header = lend(usize::MAX, |rows, words| {
        let (numbers, count) = entries::numbers_lent(rows);
        // SAFETY: all slices are valid, and those that are lent overlap no other.
        let sorted = unsafe { entries::gamulisyan_which(input.as_ptr(), input.len(), numbers, count, words.as_mut_ptr(), words.len()) };
        editions = sorted.editions;
        accepted(sorted.answer, sorted.place, sorted.rows).map(|()| (sorted.place, sorted.rows))
    })?;
    let editions = Editions::from_number(editions).expect("crate and archive are of one release");
    Ok((header, editions))
}

/// The payload behind the header, a part of `input`, possibly empty; or the refusal of the header.
///
/// ```
/// use gamulisyan::{payload, Edition};
/// let message = b"\xFE\x00\x0F\x12\x20\x31\x11\x16\x19\x15\x37\x62\x59\x20\x01";
/// assert_eq!(payload(Edition::D, message), Ok(&b""[..]));
/// assert!(payload(Edition::D, &message[..14]).is_err());
/// ```
pub fn payload(edition: Edition, input: &[u8]) -> Result<&[u8], Refusal> {
    // SAFETY: the slice is valid, and nothing is changed.
    let part = unsafe { entries::gamulisyan_payload(edition.number(), input.as_ptr(), input.len()) };
    if part.end > 0 {
        return Ok(&input[part.start..part.end]);
    }
    // from 0 to 0 only if the header is refused: a reading that is lent no row says how
    match read_into(edition, input, &mut [], &mut [0; WORDS]) {
        Err(refusal) => Err(refusal),
        Ok(_) => Ok(&input[..0]),
    }
}

/// The header's length and its rows' count.
type Read = Result<(usize, usize), Refusal>;

fn read_by(reader: Reader, edition: Edition, input: &[u8], rows: &mut [Row], words: &mut [u32; WORDS]) -> Read {
    let (numbers, count) = entries::numbers_lent(rows);
    // SAFETY: all slices are valid, and those that are lent overlap no other; the entries ask nothing else.
    let read = unsafe { reader(edition.number(), input.as_ptr(), input.len(), numbers, count, words.as_mut_ptr(), words.len()) };
    accepted(read.answer, read.place, read.rows).map(|()| (read.place, read.rows))
}

/// Lends the usual rows to a reading, and after 14 those that it needs, but never more than `most`.
fn lend(most: usize, mut reading: impl FnMut(&mut [Row], &mut [u32; WORDS]) -> Read) -> Result<Header, Refusal> {
    let mut rows = vec![Row::default(); USUAL_ROWS.min(most)];
    let mut words = [0; WORDS];
    let (length, count) = match reading(&mut rows, &mut words) {
        Err(refusal) if rows.len() < refusal.rows && refusal.rows <= most => {
            rows.resize(refusal.rows, Row::default());
            reading(&mut rows, &mut words)?
        }
        read => read?,
    };
    rows.truncate(count);
    Ok(Header { rows, words, length })
}
