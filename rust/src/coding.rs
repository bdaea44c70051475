//! Numbers and dates to and from a row's bytes.

use crate::entries;
use crate::refusal::accepted;
use crate::{Kind, Refusal};

/// The number that the bytes of a payload length row code. Refused with 10 at the byte that is wrong, missing or left over.
///
/// ```
/// assert_eq!(gamulisyan::number_decode(b"\x23\x00"), Ok(12));
/// assert!(gamulisyan::number_decode(b"\x12").is_err());
/// ```
pub fn number_decode(bytes: &[u8]) -> Result<u64, Refusal> {
    // SAFETY: the slice is valid, and nothing is changed.
    let number = unsafe { entries::gamulisyan_number_decode(bytes.as_ptr(), bytes.len()) };
    accepted(number.answer, number.place, 0).map(|()| number.value)
}

/// Codes a number over the front of `output`: the bytes written, at most 6. Refused with 10 at 0 above 4,294,967,295, then with 16 at the
/// bytes needed.
///
/// ```
/// let mut output = [0; 6];
/// assert_eq!(gamulisyan::number_encode(12, &mut output), Ok(2));
/// assert_eq!(output[..2], *b"\x23\x00");
/// ```
pub fn number_encode(value: u64, output: &mut [u8]) -> Result<usize, Refusal> {
    // SAFETY: the slice is valid.
    let coded = unsafe { entries::gamulisyan_number_encode(value, output.as_mut_ptr(), output.len()) };
    accepted(coded.answer, coded.place, 0).map(|()| coded.place)
}

/// A date's components. Of a forward or backward one they are a span.
#[derive(Clone, Copy, Debug, Default, PartialEq, Eq, Hash)]
pub struct Date {
    pub year: u32,
    pub month: u32,
    pub day: u32,
    pub hour: u32,
    pub minute: u32,
    pub second: u32,
    pub millisecond: u32,
    /// An ASCII letter, or none.
    pub designator: Option<char>,
}

/// The date that the bytes of a row of this kind code, nine or with a designator ten. Refused with 9 at the byte that is wrong, missing or
/// left over, and at 0 for a kind that is no date's.
///
/// ```
/// use gamulisyan::{date_decode, Kind};
/// let date = date_decode(Kind::DateAbsolute, b"\x31\x11\x16\x19\x15\x37\x62\x59\x20")?;
/// assert_eq!((date.year, date.month, date.day, date.millisecond), (2000, 5, 8, 481));
/// # Ok::<(), gamulisyan::Refusal>(())
/// ```
pub fn date_decode(kind: Kind, bytes: &[u8]) -> Result<Date, Refusal> {
    // SAFETY: the slice is valid, and nothing is changed.
    let dated = unsafe { entries::gamulisyan_date_decode(kind.number(), bytes.as_ptr(), bytes.len()) };
    accepted(dated.answer, dated.place, 0)?;
    let entries::Date { year, month, day, hour, minute, second, millisecond, designator } = dated.date;
    let designator = char::from_u32(designator).filter(|&letter| letter != '\0');
    Ok(Date { year, month, day, hour, minute, second, millisecond, designator })
}

/// Codes a date of this kind, without a date code, over the front of `output`: the bytes written, 9 or with a designator 10. Refused with 9
/// at 0 for a component out of range, a day that its month does not have or a kind that is no date's; then with 16 at the bytes needed.
///
/// ```
/// use gamulisyan::{date_encode, Date, Fault, Kind};
/// let never = Date { year: 1900, month: 2, day: 29, ..Date::default() };
/// let mut output = [0; 10];
/// assert_eq!(date_encode(Kind::DateAbsolute, never, &mut output).unwrap_err().fault, Fault::DateWrong);
/// assert_eq!(date_encode(Kind::DateForward, never, &mut output), Ok(9));
/// ```
pub fn date_encode(kind: Kind, date: Date, output: &mut [u8]) -> Result<usize, Refusal> {
    let Date { year, month, day, hour, minute, second, millisecond, designator } = date;
    // 0 stands for none, so a designator that is itself 0 is handed over as another number that is no letter
    let designator = match designator {
        None => 0,
        Some('\0') => u32::MAX,
        Some(letter) => letter as u32,
    };
    let date = entries::Date { year, month, day, hour, minute, second, millisecond, designator };
    // SAFETY: the slice is valid.
    let coded = unsafe { entries::gamulisyan_date_encode(kind.number(), date, output.as_mut_ptr(), output.len()) };
    accepted(coded.answer, coded.place, 0).map(|()| coded.place)
}
