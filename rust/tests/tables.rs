//! The names are those of docs/TABLES.md, and the samples are read as the README says. Both stand beside the crate, in the repository and in a
//! release's bundle.

use gamulisyan::*;
use std::path::PathBuf;

fn beside(name: &str) -> PathBuf {
    PathBuf::from(std::env::var_os("CARGO_MANIFEST_DIR").expect("cargo names the crate's folder")).join("..").join(name)
}

/// Number and name in each row of the table under this heading.
fn table(heading: &str, radix: u32) -> Vec<(u32, String)> {
    let page = std::fs::read_to_string(beside("docs/TABLES.md")).unwrap();
    let section = page.split("\n## ").find(|section| section.starts_with(heading)).unwrap();
    let cells = section.lines().map(|line| line.split('|').map(str::trim).collect::<Vec<_>>());
    cells.filter(|cells| cells.len() > 3).filter_map(|cells| Some((u32::from_str_radix(cells[1], radix).ok()?, cells[2].to_string()))).collect()
}

#[test]
fn names_are_the_tables() {
    let faults: Vec<_> = Fault::ALL.iter().map(|fault| (fault.number(), fault.to_string())).collect();
    assert_eq!(faults, table("Answers", 10)[1..]);
    let kinds: Vec<_> = Kind::ALL.iter().map(|kind| (kind.number(), kind.to_string())).collect();
    assert_eq!(kinds, table("Kinds of row", 10));
    let parameters: Vec<_> = Parameter::ALL.iter().map(|parameter| (parameter.number(), parameter.to_string())).collect();
    assert_eq!(parameters, table("Parameters", 16));
}

#[test]
fn samples_are_read() {
    let read = |name: &str| std::fs::read(beside("samples").join(name)).unwrap();
    let redirected = read("redirected.envelope");
    let (header, editions) = which(&redirected).unwrap();
    assert_eq!((editions, header.presence().len(), header.length), (Editions::Both, 2, 231));
    let to = present(Edition::D, &header.rows, &redirected, Parameter::To).unwrap().unwrap();
    assert_eq!(header.rows[to + 1].bytes(&redirected), Some(&b"suite-4@edit.example"[..]));
    let hour = read("in-an-hour.envelope");
    assert_eq!(payload(Edition::D, &hour).unwrap().len(), 12);
    assert_eq!(which(&read("no-such-day.envelope")).unwrap_err().fault, Fault::DateWrong);
    assert!(read_tolerant(Edition::B, &read("wide-length.envelope")).is_ok());
}
