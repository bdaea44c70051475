//! The month's figures.

use crate::entries;
use crate::refusal::accepted;
use crate::{Edition, Fault, Refusal};

/// How many numbers figures are.
const FIGURES: usize = 31;

/// An edition's numbers among them.
const EDITION_NUMBERS: usize = 15;

/// The figures of a month of messages, at most 1,000,000. Those of two months, or of two gateways, are joined by [`Figures::join`].
///
/// ```
/// use gamulisyan::{Edition, Fault, Figures};
/// let message = b"\xFE\x00\x0F\x12\x20\x31\x11\x16\x19\x15\x37\x62\x59\x20\x01";
/// let mut figures = Figures::default();
/// figures.add(Edition::D.number(), message)?;
/// figures.add(Edition::D.number(), &message[..14])?;
/// figures.add(0, message)?;
/// let d = figures.of(Edition::D);
/// assert_eq!((d.accepted, d.envelopes, d.header_bytes, d.refused(Fault::InputEnds)), (1, 1, 15, 1));
/// assert_eq!((figures.unknown(), figures.of(Edition::B).accepted), (1, 0));
/// assert!(figures.report().ends_with("2\t1\t1\t0\t0\t0\t0\t0\t0\t0\t0\t0\t0\t0\t1\t15\t15\t0\n1\n"));
/// # Ok::<(), gamulisyan::Refusal>(())
/// ```
#[derive(Clone, Debug, Default, PartialEq, Eq)]
pub struct Figures([u64; FIGURES]);

/// The figures of one edition.
#[derive(Clone, Copy, Debug, PartialEq, Eq)]
pub struct EditionFigures {
    /// Messages accepted.
    pub accepted: u64,
    /// Messages refused by 2 to 13.
    refused: [u64; 12],
    /// Envelopes of the accepted messages.
    pub envelopes: u64,
    /// Header bytes of the accepted messages.
    pub header_bytes: u64,
}

impl EditionFigures {
    /// How many messages were refused by this fault; none by those that a reading with room does not give.
    pub fn refused(&self, fault: Fault) -> u64 {
        (fault.number() as usize).checked_sub(2).and_then(|place| self.refused.get(place)).copied().unwrap_or(0)
    }

    /// The mean header size as a whole part and a remainder over accepted messages; 0 and 0 if there were none.
    pub fn mean(&self) -> (u64, u64) {
        (self.header_bytes.checked_div(self.accepted).unwrap_or(0), self.header_bytes.checked_rem(self.accepted).unwrap_or(0))
    }
}

impl Figures {
    /// Figures that were kept as numbers, if they are figures.
    pub fn from_numbers(numbers: [u64; FIGURES]) -> Option<Figures> {
        let mut figures = Figures::default();
        figures.join(&Figures(numbers)).ok().map(|()| figures)
    }

    /// The numbers, to be kept.
    pub fn numbers(&self) -> [u64; FIGURES] {
        self.0
    }

    /// Adds a message by its edition's number and bytes, whatever its reading answers. Refused with 19 at 0 after 1,000,000 messages, and then
    /// nothing has changed.
    pub fn add(&mut self, edition: u32, message: &[u8]) -> Result<(), Refusal> {
        // SAFETY: both are valid, and the figures overlap nothing.
        let added = unsafe { entries::gamulisyan_figures_add(edition, message.as_ptr(), message.len(), self.0.as_mut_ptr(), FIGURES) };
        accepted(added.answer, added.place, 0)
    }

    /// Adds the figures of other messages. Refused with 19 at 0 where both are of more than 1,000,000, and then nothing has changed.
    pub fn join(&mut self, others: &Figures) -> Result<(), Refusal> {
        // SAFETY: both are valid, and the figures overlap nothing.
        let joined = unsafe { entries::gamulisyan_figures_join(others.0.as_ptr(), FIGURES, self.0.as_mut_ptr(), FIGURES) };
        accepted(joined.answer, joined.place, 0)
    }

    /// An edition's figures.
    pub fn of(&self, edition: Edition) -> EditionFigures {
        let numbers = match edition {
            Edition::B => &self.0[..EDITION_NUMBERS],
            Edition::D => &self.0[EDITION_NUMBERS..2 * EDITION_NUMBERS],
        };
        let mut refused = [0; 12];
        refused.copy_from_slice(&numbers[1..13]);
        EditionFigures { accepted: numbers[0], refused, envelopes: numbers[13], header_bytes: numbers[14] }
    }

    /// How many messages were of an unknown edition.
    pub fn unknown(&self) -> u64 {
        self.0[FIGURES - 1]
    }

    /// The report: a line for each edition, and one with the unknown count.
    pub fn report(&self) -> String {
        let mut output = vec![0; 1024];
        // SAFETY: both are valid, and the output overlaps nothing.
        let reported = unsafe { entries::gamulisyan_figures_report(self.0.as_ptr(), FIGURES, output.as_mut_ptr(), output.len()) };
        output.truncate(if reported.answer == 0 { reported.place } else { 0 });
        String::from_utf8(output).unwrap_or_default()
    }
}
