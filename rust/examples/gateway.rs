//! gateway b|d [FILE]: what examples/gateway.c does, from Rust; it prints the same lines and ends with the same status.
//!     cargo run --example gateway d ../samples/simple.envelope

use gamulisyan::{lookup, present, read, read_tolerant, which, write, Edition, Fault, Header, Kind, Parameter, Presence, Refusal, Row};
use std::io::{Read, Write};
use std::process::ExitCode;

/// From the envelope's word alone: how many different parameters it has, and which.
fn parameters(presence: Presence, lines: &mut Vec<u8>) {
    lines.extend(format!("has {}", presence.count()).bytes());
    for parameter in Parameter::ALL.iter().filter(|&&parameter| presence.has(parameter)) {
        lines.extend(format!("\t{parameter}").bytes());
    }
    lines.push(b'\n');
}

fn put_text(input: &[u8], row: Row, lines: &mut Vec<u8>) {
    lines.push(b'\t');
    lines.extend_from_slice(row.bytes(input).unwrap_or_default());
}

/// The rows directly inside the one at `place`: hops from one to the row behind all that belongs to it.
fn inside(rows: &[Row], place: usize) -> impl Iterator<Item = usize> + '_ {
    let end = rows[place].skip as usize;
    let hop = move |&next: &usize| Some(rows[next].skip as usize).filter(|&after| after < end);
    std::iter::successors(Some(place + 1).filter(|&first| first < end), hop)
}

/// An agent's name, and behind it its addresses, if it has any: the rows of its resolvers and extras are skipped.
fn agent(input: &[u8], rows: &[Row], place: usize, lines: &mut Vec<u8>) {
    put_text(input, rows[place], lines);
    for list in inside(rows, place).filter(|&part| rows[part].kind() == Some(Kind::AddressesOpen)) {
        for address in inside(rows, list) {
            put_text(input, rows[address], lines);
        }
    }
    lines.push(b'\n');
}

/// A line for each agent of a list by its present value: the list, the name, the addresses. Of several lists the first decides, so that of an
/// envelope put in front.
fn receivers(edition: Edition, input: &[u8], rows: &[Row], parameter: Parameter, lines: &mut Vec<u8>) {
    if let Ok(Some(place)) = present(edition, rows, input, parameter) {
        for next in inside(rows, place) {
            lines.extend_from_slice(parameter.name().as_bytes());
            agent(input, rows, next, lines);
        }
    }
}

/// By hops, with the words of the same reading: envelopes without the parameter are left out, and lists are not walked through.
fn encoding(input: &[u8], header: &Header, lines: &mut Vec<u8>) {
    if let Ok(found) = lookup(&header.rows, &header.words, Parameter::PayloadEncoding) {
        if let Some(place) = found.row {
            lines.extend_from_slice(Parameter::PayloadEncoding.name().as_bytes());
            put_text(input, header.rows[place], lines);
            lines.extend(format!("\tin {} looks\n", found.looked).bytes());
        }
    }
}

/// As if it had come without a label: the editions that allow it. A header that is only read tolerantly has none.
fn editions(input: &[u8], lines: &mut Vec<u8>) {
    if let Ok((_, editions)) = which(input) {
        lines.extend_from_slice(b"allowed by");
        for edition in Edition::ALL.iter().filter(|&&edition| editions.allow(edition)) {
            lines.extend(format!("\t{}", edition.name().to_lowercase()).bytes());
        }
        lines.push(b'\n');
    }
}

/// A header that is refused only because a length stands too wide is read tolerantly; a line says so.
fn read_either(edition: Edition, input: &[u8], lines: &mut Vec<u8>) -> Result<Header, Refusal> {
    match read(edition, input) {
        Err(refusal) if refusal.fault == Fault::LengthFormWide => {
            lines.extend(format!("a length at {} stands too wide\n", refusal.place).bytes());
            read_tolerant(edition, input)
        }
        answer => answer,
    }
}

/// What is printed of a message; or which call refused it, and how.
fn pass_on(edition: Edition, input: &[u8]) -> Result<Vec<u8>, (&'static str, Refusal)> {
    let mut lines = Vec::new();
    let header = read_either(edition, input, &mut lines).map_err(|refusal| ("reading", refusal))?;
    let written = write(edition, &header.rows, input).map_err(|refusal| ("writing", refusal))?;
    editions(input, &mut lines);
    for presence in header.presence() {
        parameters(presence, &mut lines);
    }
    receivers(edition, input, &header.rows, Parameter::To, &mut lines);
    receivers(edition, input, &header.rows, Parameter::Receiver, &mut lines);
    encoding(input, &header, &mut lines);
    let (head, payload) = input.split_at(header.length);
    let verdict = if written == head { "the same".to_string() } else { format!("in {}", written.len()) };
    lines.extend(format!("header {} bytes, written again {verdict}\npayload {} bytes\n", head.len(), payload.len()).bytes());
    Ok(lines)
}

fn take_input(name: Option<&String>) -> std::io::Result<Vec<u8>> {
    let mut input = Vec::new();
    match name {
        Some(name) => std::fs::File::open(name)?.read_to_end(&mut input)?,
        None => std::io::stdin().read_to_end(&mut input)?,
    };
    Ok(input)
}

fn main() -> ExitCode {
    let arguments: Vec<String> = std::env::args().collect();
    let edition = match (arguments.len(), arguments.get(1).map(String::as_str)) {
        (2 | 3, Some("b")) => Edition::B,
        (2 | 3, Some("d")) => Edition::D,
        _ => {
            eprintln!("gateway: usage: gateway b|d [FILE]");
            return ExitCode::from(2);
        }
    };
    let input = match take_input(arguments.get(2)) {
        Ok(input) => input,
        Err(_) => {
            eprintln!("gateway: the file cannot be read");
            return ExitCode::from(2);
        }
    };
    match pass_on(edition, &input) {
        Ok(lines) => ExitCode::from(u8::from(std::io::stdout().write_all(&lines).is_err())),
        Err((call, refusal)) => {
            eprintln!("gateway: {call} refused with {} at {}", refusal.fault.number(), refusal.place);
            ExitCode::from(1)
        }
    }
}
