//! The sample of crates/replay, answered through this crate: every answer and every byte of the store, as they were recorded.

mod frames;
mod parents;

use frames::{be_u32, frames, replay, Frame};
use parents::check_parents;
use tandrekily::{decode, decode_avp, decode_avp_by, decode_by};
use tandrekily::{find, header, radius, shift, write};
use tandrekily::{Fields, Header, Message, OneAvp, Reader, Reading};
use tandrekily::{Record, Records, Refusal, UnitValue};

const MESSAGE: u8 = 0;
const HEADER_ALONE: u8 = 1;
const AVP_ALONE: u8 = 2;
const SEARCH: u8 = 4;
const STEPS: u8 = 5;
const MESSAGE_BY: u8 = 6;
const AVP_BY: u8 = 7;
const COMPARISON: u8 = 8;
const PACKET: u8 = 9;
const PACKET_TABLE: u8 = 10;
const MOVED: u8 = 11;
const JOINED: u8 = 12;

/// How many cases of each function there are at least.
const CASES: [usize; 13] = [
    4_700, 100, 1_500, 200, 1_400, 600, 1_400, 600, 1_100, 1_700, 1_000, 500, 200,
];

/// How many bytes the fields take in the input of a case for a writer.
const FIELDS: usize = 17;
const PACKET_FIELDS: usize = 18;

fn put_count(out: &mut Vec<u8>, count: usize) {
    out.extend((count as u32).to_be_bytes());
}

fn put_refusal(out: &mut Vec<u8>, refusal: Refusal) {
    out.push(refusal.number());
    put_count(out, refusal.amount());
}

fn put_accepted(out: &mut Vec<u8>) {
    out.push(0);
    put_count(out, 0);
}

fn put_header(out: &mut Vec<u8>, header: Header) {
    out.push(header.version);
    out.extend(&header.length.to_be_bytes()[1..]);
    out.push(header.flags);
    out.extend(&header.code.to_be_bytes()[1..]);
    for number in [header.app_id, header.hop_id, header.end_id] {
        out.extend(number.to_be_bytes());
    }
}

fn put_counts(out: &mut Vec<u8>, errors: u8, records: usize, tried: usize, length: usize) {
    out.push(errors);
    out.extend((records as u16).to_be_bytes());
    put_count(out, tried);
    put_count(out, length);
}

/// A record that is read and made again must be the same row, and have the parent that the depths tell.
fn check_rows(records: Records) {
    let made: Vec<u8> = records
        .clone()
        .flat_map(|avp| avp.record.to_bytes())
        .collect();
    assert_eq!(made, records.as_bytes());
    check_parents(records);
}

fn put_message(out: &mut Vec<u8>, answer: Result<Message, Refusal>) {
    match answer {
        Ok(m) => {
            put_accepted(out);
            put_header(out, m.header);
            put_counts(out, m.errors, m.records().len(), m.tried, m.length);
            check_rows(m.records());
        }
        Err(refusal) => put_refusal(out, refusal),
    }
}

fn message(frame: &Frame, store: &mut [u8], out: &mut Vec<u8>) {
    let answer = decode(&frame.input, frame.reading, frame.limits, store);
    put_message(out, answer);
}

/// The edition stands before the message.
fn message_by(frame: &Frame, store: &mut [u8], out: &mut Vec<u8>) {
    let (edition, input) = frame.input.split_at(4);
    let answer = decode_by(input, be_u32(edition), frame.limits, store);
    put_message(out, answer);
}

fn header_alone(frame: &Frame, out: &mut Vec<u8>) {
    match header(&frame.input) {
        Ok((header, errors)) => {
            put_accepted(out);
            put_header(out, header);
            put_counts(out, errors, 0, 0, Header::SIZE);
        }
        Err(refusal) => put_refusal(out, refusal),
    }
}

fn put_avp(out: &mut Vec<u8>, answer: Result<OneAvp, Refusal>) {
    match answer {
        Ok(one) => {
            put_accepted(out);
            put_counts(out, one.errors, one.records().len(), one.tried, one.length);
            check_rows(one.records());
        }
        Err(refusal) => put_refusal(out, refusal),
    }
}

fn avp_alone(frame: &Frame, store: &mut [u8], out: &mut Vec<u8>) {
    let answer = decode_avp(&frame.input, frame.reading, frame.limits, store);
    put_avp(out, answer);
}

/// The edition stands before the AVP.
fn avp_by(frame: &Frame, store: &mut [u8], out: &mut Vec<u8>) {
    let (edition, input) = frame.input.split_at(4);
    let answer = decode_avp_by(input, be_u32(edition), frame.limits, store);
    put_avp(out, answer);
}

fn fields_of(bytes: &[u8]) -> Fields {
    Fields {
        flags: bytes[0],
        code: be_u32(&bytes[1..5]),
        app_id: be_u32(&bytes[5..9]),
        hop_id: be_u32(&bytes[9..13]),
        end_id: be_u32(&bytes[13..17]),
    }
}

/// The fields, the table and the pool of a case for a writer. The table's length stands before the table.
fn parts(input: &[u8], fields: usize) -> (&[u8], &[u8], &[u8]) {
    let (front, rest) = input.split_at(fields);
    let (size, rest) = rest.split_at(4);
    let (table, pool) = rest.split_at(be_u32(size) as usize);
    (front, table, pool)
}

/// Of a writer the count is the total, of a table that is moved its records.
fn put_counted(out: &mut Vec<u8>, answer: Result<usize, Refusal>) {
    match answer {
        Ok(count) => {
            put_accepted(out);
            put_count(out, count);
        }
        Err(refusal) => put_refusal(out, refusal),
    }
}

fn table(frame: &Frame, store: &mut [u8], out: &mut Vec<u8>) {
    let (fields, table, pool) = parts(&frame.input, FIELDS);
    let answer = write(fields_of(fields), table, pool, store);
    put_counted(out, answer);
}

/// The code stands before the message. A fresh reader must find the same.
fn search(frame: &Frame, out: &mut Vec<u8>) {
    let (code, message) = frame.input.split_at(4);
    let code = be_u32(code);
    let found = find(message, code);
    let by_reader = Reader::new(message).and_then(|mut reader| reader.find(code));
    assert_eq!(found, by_reader);
    match found {
        Ok(Some(outline)) => {
            put_accepted(out);
            out.push(1);
            out.extend(outline.to_bytes());
        }
        Ok(None) => {
            put_accepted(out);
            out.push(0);
        }
        Err(refusal) => put_refusal(out, refusal),
    }
}

/// The bytes of a case as a message that a reader accepts. The steps start behind the header and don't look at it, and in some cases
/// it is not whole or has another length. So it is made whole and given the length of what is there, which most of them have.
fn followed(bytes: &[u8]) -> Vec<u8> {
    let mut message = bytes.to_vec();
    message.resize(bytes.len().max(Header::SIZE), 0);
    let length = message.len() as u32;
    message[..4].copy_from_slice(&length.to_be_bytes());
    message[0] = 1;
    message
}

/// There are fewer steps than bytes.
fn steps(frame: &Frame, out: &mut Vec<u8>) {
    let message = followed(&frame.input);
    let mut reader = Reader::new(&message).expect("a header that fits");
    for _ in 0..message.len() {
        let step = reader.next();
        match step {
            Some(Ok(outline)) => {
                out.push(1);
                out.extend(outline.to_bytes());
            }
            Some(Err(_)) => out.push(2),
            None => out.push(0),
        }
        put_count(out, reader.place());
        if !matches!(step, Some(Ok(_))) {
            return;
        }
    }
}

fn unit_value(bytes: &[u8]) -> UnitValue {
    let (digits, exponent) = bytes.split_at(8);
    UnitValue {
        digits: i64::from_be_bytes(digits.try_into().expect("8 bytes")),
        exponent: be_u32(exponent) as i32,
    }
}

/// Less is 0, equal 1, greater 2.
fn comparison(frame: &Frame, out: &mut Vec<u8>) {
    let (one, other) = frame.input.split_at(12);
    match unit_value(one).compare(unit_value(other)) {
        Ok(order) => {
            put_accepted(out);
            out.push((order as i8 + 1) as u8);
        }
        Err(refusal) => put_refusal(out, refusal),
    }
}

/// As many attributes are tried as there are records. A refusal has no authenticator, and zeros stand in its place.
fn packet(frame: &Frame, store: &mut [u8], out: &mut Vec<u8>) {
    match radius::decode(&frame.input, store) {
        Ok(p) => {
            put_accepted(out);
            out.extend([p.header.code, p.header.identifier]);
            put_counts(out, p.errors, p.records().len(), p.tried, p.length);
            out.extend(p.header.authenticator);
            check_rows(p.records());
        }
        Err(refusal) => {
            put_refusal(out, refusal);
            out.extend([0; 16]);
        }
    }
}

fn packet_header(bytes: &[u8]) -> radius::Header {
    radius::Header {
        code: bytes[0],
        identifier: bytes[1],
        authenticator: bytes[2..].try_into().expect("16 bytes"),
    }
}

fn packet_table(frame: &Frame, store: &mut [u8], out: &mut Vec<u8>) {
    let (fields, table, pool) = parts(&frame.input, PACKET_FIELDS);
    let answer = radius::write(packet_header(fields), table, pool, store);
    put_counted(out, answer);
}

fn wide(bytes: &[u8]) -> usize {
    u64::from_be_bytes(bytes.try_into().expect("8 bytes")) as usize
}

/// How many bytes and how many records the table is moved by stand before it. It is moved at the front of the store.
fn moved(frame: &Frame, store: &mut [u8], out: &mut Vec<u8>) {
    let (bytes, rest) = frame.input.split_at(8);
    let (records, table) = rest.split_at(8);
    let copy = &mut store[..table.len()];
    copy.copy_from_slice(table);
    let answer = shift(copy, wide(bytes), wide(records));
    put_counted(out, answer);
}

/// What is answered of a message that was joined.
struct Counts {
    errors: u8,
    records: usize,
    tried: usize,
    length: usize,
}

impl Counts {
    fn of(message: &Message) -> Counts {
        Counts {
            errors: message.errors,
            records: message.records().len(),
            tried: message.tried,
            length: message.length,
        }
    }

    fn and(self, second: Counts) -> Counts {
        Counts {
            errors: self.errors | second.errors,
            records: self.records + second.records,
            tried: self.tried + second.tried,
            length: self.length + second.length - Header::SIZE,
        }
    }
}

/// The second message is decoded behind the records of the first, and its records are moved there.
fn join(frame: &Frame, store: &mut [u8]) -> Result<Counts, Refusal> {
    let (size, rest) = frame.input.split_at(4);
    let (first, second) = rest.split_at(be_u32(size) as usize);
    let first = Counts::of(&decode(first, frame.reading, frame.limits, store)?);
    let behind = &mut store[first.records * Record::SIZE..];
    let second = Counts::of(&decode(second, frame.reading, frame.limits, behind)?);
    let table = &mut behind[..second.records * Record::SIZE];
    let moved = shift(table, first.length - Header::SIZE, first.records)?;
    assert_eq!(moved, second.records);
    Ok(first.and(second))
}

fn joined(frame: &Frame, store: &mut [u8], out: &mut Vec<u8>) {
    match join(frame, store) {
        Ok(both) => {
            put_accepted(out);
            put_counts(out, both.errors, both.records, both.tried, both.length);
        }
        Err(refusal) => put_refusal(out, refusal),
    }
}

fn answer(frame: &Frame) -> Vec<u8> {
    let mut out = Vec::new();
    let mut store = frame.store();
    match frame.function {
        MESSAGE => message(frame, &mut store, &mut out),
        HEADER_ALONE => header_alone(frame, &mut out),
        AVP_ALONE => avp_alone(frame, &mut store, &mut out),
        SEARCH => search(frame, &mut out),
        STEPS => steps(frame, &mut out),
        MESSAGE_BY => message_by(frame, &mut store, &mut out),
        AVP_BY => avp_by(frame, &mut store, &mut out),
        COMPARISON => comparison(frame, &mut out),
        PACKET => packet(frame, &mut store, &mut out),
        PACKET_TABLE => packet_table(frame, &mut store, &mut out),
        MOVED => moved(frame, &mut store, &mut out),
        JOINED => joined(frame, &mut store, &mut out),
        _ => table(frame, &mut store, &mut out),
    }
    out.extend(store);
    out
}

#[test]
fn every_answer_is_the_recorded_one() {
    let recorded = replay("stdout");
    let mut rest = &recorded[..];
    for (index, frame) in frames().iter().enumerate() {
        let ours = answer(frame);
        let theirs = &rest[..ours.len().min(rest.len())];
        assert!(
            ours == theirs,
            "case {index}, function {}:\n{ours:02x?}\n{theirs:02x?}",
            frame.function
        );
        rest = &rest[ours.len()..];
    }
    assert!(rest.is_empty(), "{} bytes were not answered", rest.len());
}

#[test]
fn the_sample_has_every_function_and_both_readings() {
    let sample = frames();
    for (function, least) in CASES.into_iter().enumerate() {
        let of_it = sample
            .iter()
            .filter(|f| usize::from(f.function) == function);
        let cases = of_it.count();
        assert!(cases >= least, "{cases} cases of function {function}");
    }
    assert!(sample.iter().any(|f| f.reading == Reading::Sawp));
    assert!(sample.iter().any(|f| f.reading == Reading::Rfc));
}
