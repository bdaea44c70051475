//! The proved reader and writer of the FIPA bit-efficient message envelope, editions B and D, over its archive.
//!
//! Every function is safe for every argument: the archive's entries ask nothing of their callers but valid slices, of which those that are
//! changed overlap no other, and Rust's references see to both. They have no state, so any number of threads may call at once.
//!
//! ```
//! use gamulisyan::{lookup, read, Edition, Kind, Parameter};
//! let message = b"\xFE\x00\x14\x12\x20\x31\x11\x16\x19\x15\x37\x62\x59\x20\x03\x02a\x00\x01\x01(";
//! let header = read(Edition::D, message)?;
//! let from = lookup(&header.rows, &header.words, Parameter::From)?.row.expect("it has a sender");
//! let agent = header.rows[from + 1];
//! assert_eq!(agent.kind(), Some(Kind::AgentName));
//! assert_eq!(agent.bytes(message), Some(&b"a"[..]));
//! assert_eq!(message[header.length..], *b"(");
//! # Ok::<(), gamulisyan::Refusal>(())
//! ```
//!
//! The archive is for x86-64 Linux; `build.rs` says where it is looked for.

#![deny(unsafe_op_in_unsafe_fn)]

mod asking;
mod coding;
mod entries;
mod figures;
mod names;
mod reading;
mod refusal;
mod relaying;
mod writing;

pub use asking::{lookup, present, Found};
pub use coding::{date_decode, date_encode, number_decode, number_encode, Date};
pub use figures::{EditionFigures, Figures};
pub use names::{Edition, Editions, Fault, Kind, Parameter};
pub use reading::{payload, read, read_into, read_plain_into, read_plain_tolerant_into, read_tolerant, read_within, which, Header, Presence, Row, WORDS};
pub use refusal::Refusal;
pub use relaying::{relay, relay_into};
pub use writing::{write, write_into};

/// Major, minor and patch of the archive that is linked; all 0 if it is no release.
///
/// ```
/// assert!(gamulisyan::version().iter().all(|&part| part < 1000));
/// ```
pub fn version() -> [u32; 3] {
    // SAFETY: the entry takes nothing and touches no memory.
    let number = unsafe { entries::gamulisyan_version() };
    [number / 1_000_000, number / 1000 % 1000, number % 1000]
}

/// Whether this crate and the archive that is linked are of one release. Rows and calls change between releases: a program that may meet
/// another archive than its crate was made for asks this first.
///
/// ```
/// assert!(gamulisyan::same_release());
/// ```
pub fn same_release() -> bool {
    let [major, minor, patch] = version();
    format!("{major}.{minor}.{patch}") == env!("CARGO_PKG_VERSION")
}
