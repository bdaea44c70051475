//! The archive's entries as `include/gamulisyan.h` declares them. The one place of this crate that knows their types: a new entry is
//! declared here and wrapped in the module of its subject.

use crate::{Row, WORDS};

#[repr(C)]
pub struct Answer {
    pub answer: u32,
    pub place: usize,
    pub rows: usize,
}

#[repr(C)]
pub struct Sorted {
    pub answer: u32,
    pub place: usize,
    pub rows: usize,
    pub editions: u32,
}

#[repr(C)]
pub struct Part {
    pub start: usize,
    pub end: usize,
}

#[repr(C)]
pub struct Number {
    pub answer: u32,
    pub place: usize,
    pub value: u64,
}

#[repr(C)]
pub struct Coded {
    pub answer: u32,
    pub place: usize,
}

#[repr(C)]
pub struct Date {
    pub year: u32,
    pub month: u32,
    pub day: u32,
    pub hour: u32,
    pub minute: u32,
    pub second: u32,
    pub millisecond: u32,
    pub designator: u32,
}

#[repr(C)]
pub struct Dated {
    pub answer: u32,
    pub place: usize,
    pub date: Date,
}

/// `gamulisyan_read`, `gamulisyan_read_tolerant`, or either of the plain engine.
pub type Reader = unsafe extern "C" fn(u32, *const u8, usize, *mut u32, usize, *mut u32, usize) -> Answer;

#[link(name = "gamulisyan", kind = "static")]
extern "C" {
    pub fn gamulisyan_read(
        edition: u32,
        input: *const u8,
        length: usize,
        rows: *mut u32,
        numbers: usize,
        words: *mut u32,
        word_count: usize,
    ) -> Answer;
    pub fn gamulisyan_read_tolerant(
        edition: u32,
        input: *const u8,
        length: usize,
        rows: *mut u32,
        numbers: usize,
        words: *mut u32,
        word_count: usize,
    ) -> Answer;
    pub fn gamulisyan_read_plain(
        edition: u32,
        input: *const u8,
        length: usize,
        rows: *mut u32,
        numbers: usize,
        words: *mut u32,
        word_count: usize,
    ) -> Answer;
    pub fn gamulisyan_read_plain_tolerant(
        edition: u32,
        input: *const u8,
        length: usize,
        rows: *mut u32,
        numbers: usize,
        words: *mut u32,
        word_count: usize,
    ) -> Answer;
    pub fn gamulisyan_which(input: *const u8, length: usize, rows: *mut u32, numbers: usize, words: *mut u32, word_count: usize) -> Sorted;
    pub fn gamulisyan_ones(word: u32) -> u32;
    pub fn gamulisyan_write(
        edition: u32,
        rows: *const u32,
        numbers: usize,
        pool: *const u8,
        pool_length: usize,
        output: *mut u8,
        length: usize,
    ) -> Answer;
    pub fn gamulisyan_present(edition: u32, rows: *const u32, numbers: usize, pool: *const u8, pool_length: usize, code: u32) -> Answer;
    pub fn gamulisyan_lookup(rows: *const u32, numbers: usize, words: *const u32, word_count: usize, code: u32) -> Answer;
    pub fn gamulisyan_relay(
        edition: u32,
        input: *const u8,
        length: usize,
        table: *const u32,
        table_numbers: usize,
        pool: *const u8,
        pool_length: usize,
        rows: *mut u32,
        numbers: usize,
        words: *mut u32,
        word_count: usize,
        output: *mut u8,
        output_length: usize,
    ) -> Answer;
    pub fn gamulisyan_payload(edition: u32, input: *const u8, length: usize) -> Part;
    pub fn gamulisyan_number_decode(bytes: *const u8, length: usize) -> Number;
    pub fn gamulisyan_number_encode(value: u64, output: *mut u8, length: usize) -> Coded;
    pub fn gamulisyan_date_decode(kind: u32, bytes: *const u8, length: usize) -> Dated;
    pub fn gamulisyan_date_encode(kind: u32, date: Date, output: *mut u8, length: usize) -> Coded;
    pub fn gamulisyan_figures_add(edition: u32, input: *const u8, length: usize, figures: *mut u64, numbers: usize) -> Coded;
    pub fn gamulisyan_figures_join(others: *const u64, other_numbers: usize, figures: *mut u64, numbers: usize) -> Coded;
    pub fn gamulisyan_figures_report(figures: *const u64, numbers: usize, output: *mut u8, length: usize) -> Coded;
    pub fn gamulisyan_version() -> u32;
}

/// How many numbers a row has.
pub const ROW_NUMBERS: usize = 5;

/// Rows as the entries count them: a row is five numbers, one behind the other.
pub fn numbers(rows: &[Row]) -> (*const u32, usize) {
    (rows.as_ptr().cast(), rows.len() * ROW_NUMBERS)
}

/// The same of rows that are lent to be filled.
pub fn numbers_lent(rows: &mut [Row]) -> (*mut u32, usize) {
    (rows.as_mut_ptr().cast(), rows.len() * ROW_NUMBERS)
}

// rows can be handed over as they are only if nothing stands between their numbers
const _: () = assert!(std::mem::size_of::<Row>() == ROW_NUMBERS * std::mem::size_of::<u32>());
const _: () = assert!(WORDS == 16);
