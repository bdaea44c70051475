//! Document 01's checked instances and the refusals, through the crate.

use gamulisyan::*;

const M: [u8; 15] = *b"\xFE\x00\x0F\x12\x20\x31\x11\x16\x19\x15\x37\x62\x59\x20\x01";

/// M with other bytes at some places.
fn with(changes: &[(usize, u8)]) -> Vec<u8> {
    let mut message = M.to_vec();
    for &(place, byte) in changes {
        message[place] = byte;
    }
    message
}

fn refused(edition: Edition, input: &[u8]) -> (u32, usize) {
    let refusal = read(edition, input).unwrap_err();
    assert_eq!(refusal.rows, 0);
    (refusal.fault.number(), refusal.place)
}

#[test]
fn accepts_m_in_both_editions() {
    for &edition in Edition::ALL {
        let header = read(edition, &M).unwrap();
        assert_eq!((header.length, header.rows.len()), (15, 3));
        assert_eq!(write(edition, &header.rows, &M).unwrap(), M);
    }
    assert_eq!(which(&M).unwrap().1, Editions::Both);
}

#[test]
fn refuses_as_the_document_says() {
    assert_eq!(refused(Edition::B, &[]), (2, 0));
    assert_eq!(refused(Edition::D, &with(&[(7, 0x06)])), (9, 7));
    assert_eq!(refused(Edition::D, &with(&[(2, 0x0E)])), (6, 14));
    assert_eq!(refused(Edition::D, &with(&[(2, 0x10)])), (2, 15));
    let mut longer = with(&[(2, 0x10)]);
    longer.push(0);
    assert_eq!(refused(Edition::D, &longer), (13, 15));
}

#[test]
fn keeps_the_editions_apart() {
    let forward = with(&[(4, 0x21)]);
    assert_eq!(read(Edition::D, &forward).unwrap().rows[2].kind(), Some(Kind::DateForward));
    assert_eq!(refused(Edition::B, &forward), (9, 14));
    assert_eq!(which(&forward).unwrap().1, Editions::D);
    let designated = b"\xFE\x00\x10\x12\x21\x31\x11\x16\x19\x15\x37\x62\x59\x20\x5A\x01";
    assert_eq!(read(Edition::B, designated).unwrap().rows[2].length, 10);
    assert_eq!(refused(Edition::D, designated), (7, 14));
    let never = which(&M[..14]).unwrap_err();
    assert_eq!((never.fault, never.place), (Fault::InputEnds, 14));
}

#[test]
fn tells_a_refused_payload_from_an_empty_one() {
    let mut message = M.to_vec();
    assert_eq!(payload(Edition::D, &message), Ok(&b""[..]));
    message.push(b'!');
    assert_eq!(payload(Edition::D, &message), Ok(&b"!"[..]));
    let refusal = payload(Edition::D, &M[..3]).unwrap_err();
    assert_eq!((refusal.fault, refusal.place), (Fault::InputEnds, 3));
    assert_eq!(payload(Edition::B, &[]).unwrap_err().fault, Fault::InputEnds);
}

#[test]
fn lends_what_is_needed_and_no_more() {
    let mut params = Vec::new();
    for _ in 0..300 {
        params.extend_from_slice(b"\x05\x00");
    }
    let length = (M.len() + params.len()) as u16;
    let mut message = M[..14].to_vec();
    message[1..3].copy_from_slice(&length.to_be_bytes());
    message.extend_from_slice(&params);
    message.push(1);
    assert_eq!(read(Edition::D, &message).unwrap().rows.len(), 303);
    let short = read_within(Edition::D, &message, 302).unwrap_err();
    assert_eq!((short.fault, short.rows), (Fault::RowsShort, 303));
    assert_eq!(read_within(Edition::D, &message, 303).unwrap().rows.len(), 303);
    assert_eq!(which(&message).unwrap().0.rows.len(), 303);
}

#[test]
fn refuses_rows_that_are_no_table() {
    let mut rows = read(Edition::B, &M).unwrap().rows;
    rows[1].skip = 3;
    let refusal = write(Edition::B, &rows, &M).unwrap_err();
    assert_eq!((refusal.fault, refusal.place), (Fault::TableWrong, 1));
    assert_eq!(write(Edition::B, &[], &[]).unwrap_err().fault, Fault::TableWrong);
    assert_eq!(present(Edition::B, &rows, &M, Parameter::To).unwrap_err().fault, Fault::TableWrong);
}

#[test]
fn asks_for_parameters_that_can_be_asked_for() {
    let header = read(Edition::B, &M).unwrap();
    assert_eq!(present(Edition::B, &header.rows, &M, Parameter::Own).unwrap_err().fault, Fault::ParameterUnknown);
    assert_eq!(lookup(&header.rows, &header.words, Parameter::To), Ok(Found { row: None, looked: 1 }));
    assert_eq!(lookup(&header.rows, &header.words[..15], Parameter::To).unwrap_err().fault, Fault::RowsShort);
    let presence = header.presence()[0];
    assert_eq!(Parameter::ALL.iter().filter(|&&parameter| presence.has(parameter)).count() as u32, presence.count());
    assert_eq!(Presence(u32::MAX).count(), 32);
}

#[test]
fn relays_up_to_sixteen_envelopes() {
    let hop = b"\xFD\x00\x11a\x00\x20\x31\x11\x16\x19\x15\x37\x62\x59\x20\x01\x01";
    let table = read(Edition::D, &[&hop[..], &M].concat()).unwrap().rows[..3].to_vec();
    let mut message = M.to_vec();
    for envelopes in 2..=16 {
        let (joined, header) = relay(Edition::D, &message, &table, hop).unwrap();
        assert_eq!(joined, [&hop[..], &message].concat());
        assert_eq!((header.presence().len(), &header), (envelopes, &read(Edition::D, &joined).unwrap()));
        message = joined;
    }
    let seventeenth = relay(Edition::D, &message, &table, hop).unwrap_err();
    assert_eq!((seventeenth.fault, seventeenth.place), (Fault::EnvelopeLimit, 0));
    let base = read(Edition::D, &M).unwrap().rows;
    assert_eq!(relay(Edition::D, &M, &base, &M).unwrap_err().fault, Fault::TableWrong);
    let ended = relay(Edition::D, &M[..14], &table, hop).unwrap_err();
    assert_eq!((ended.fault, ended.place), (Fault::InputEnds, 14));
    let short = relay_into(Edition::D, &M, &table, hop, &mut [Row::default(); 6], &mut [0; WORDS], &mut [0; 31]).unwrap_err();
    assert_eq!((short.fault, short.place), (Fault::OutputShort, 32));
}

#[test]
fn codes_numbers() {
    assert_eq!(number_decode(b"\x53\xA5\xA7\x83\xA6\x00"), Ok(4_294_967_295));
    let refusal = number_decode(b"\x53\xA5\xA7\x83\xA7\x00").unwrap_err();
    assert_eq!((refusal.fault, refusal.place), (Fault::NumberWrong, 4));
    assert_eq!(number_encode(4_294_967_296, &mut [0; 9]).unwrap_err().fault, Fault::NumberWrong);
    let short = number_encode(12, &mut [0; 1]).unwrap_err();
    assert_eq!((short.fault, short.place), (Fault::OutputShort, 2));
}

#[test]
fn codes_dates() {
    let date = Date { year: 2000, month: 2, day: 29, hour: 4, minute: 26, second: 51, millisecond: 481, designator: Some('Z') };
    let mut output = [0; 10];
    assert_eq!(date_encode(Kind::DateAbsolute, date, &mut output), Ok(10));
    assert_eq!(date_decode(Kind::DateAbsolute, &output), Ok(date));
    for designator in ['\0', '1', 'ä'] {
        let refusal = date_encode(Kind::DateAbsolute, Date { designator: Some(designator), ..date }, &mut output).unwrap_err();
        assert_eq!((refusal.fault, refusal.place), (Fault::DateWrong, 0));
    }
    assert_eq!(date_decode(Kind::ToOpens, &output).unwrap_err().fault, Fault::DateWrong);
}

#[test]
fn refusals_are_errors() {
    fn ask() -> Result<usize, Box<dyn std::error::Error>> {
        Ok(read(Edition::D, b"\x00")?.length)
    }
    assert_eq!(ask().unwrap_err().to_string(), "3 at 0: identifier not FD or FE");
}

#[test]
fn rows_outside_their_pool_have_no_bytes() {
    let row = Row { start: u32::MAX, length: u32::MAX, ..Row::default() };
    assert_eq!((row.bytes(&M), row.kind()), (None, None));
}
