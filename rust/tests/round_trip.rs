//! What was decoded is written back byte for byte, and not where a record has another parent.

mod frames;
mod parents;
mod random;

use frames::{be_u32, frames, Frame, LENT};
use parents::check_parents;
use random::Random;
use tandrekily::{decode, decode_avp, decode_by, write};
use tandrekily::{Fields, Header, Limits, Message, Reading, Record, Refusal};

/// P8 (docs/FORMAT.md, 10): a Result-Code with a fifth data byte.
const FIFTH_BYTE: [u8; 36] = [
    1, 0, 0, 36, 0, 0, 0, 0, 0, 0, 0, 0, 0, 0, 0, 0, 0, 0, 0, 0, // header
    0, 0, 1, 12, 0, 0, 0, 13, 0, 0, 7, 209, 0, 0, 0, 0,
];

/// Bytes of the output past the message, which must stay.
const PAST: usize = 7;

/// Writes to an output that is longer than the message, and returns the message.
fn written(fields: Fields, table: &[u8], pool: &[u8], length: usize) -> Vec<u8> {
    let mut out = vec![LENT; length + PAST];
    assert_eq!(write(fields, table, pool, &mut out), Ok(length));
    assert_eq!(out.split_off(length), [LENT; PAST]);
    out
}

fn check_back(m: Message, input: &[u8]) {
    check_parents(m.records());
    let back = written(m.header.into(), m.table(), input, m.length);
    assert_eq!(back, input[..m.length]);
}

/// Is the frame's message accepted, and if so, does it come back?
fn message_comes_back(frame: &Frame) -> bool {
    let mut store = frame.store();
    let m = decode(&frame.input, frame.reading, frame.limits, &mut store);
    m.map(|m| check_back(m, &frame.input)).is_ok()
}

/// The same by the edition that stands before the message.
fn message_comes_back_by(frame: &Frame) -> bool {
    let (edition, input) = frame.input.split_at(4);
    let mut store = frame.store();
    let m = decode_by(input, be_u32(edition), frame.limits, &mut store);
    m.map(|m| check_back(m, input)).is_ok()
}

/// The same of an AVP alone, which comes back behind a header.
fn avp_comes_back(frame: &Frame) -> bool {
    let mut store = frame.store();
    let Ok(one) = decode_avp(&frame.input, frame.reading, frame.limits, &mut store) else {
        return false;
    };
    check_parents(one.records());
    let length = Header::SIZE + one.length;
    let back = written(Fields::default(), one.table(), &frame.input, length);
    assert_eq!(back[Header::SIZE..], frame.input[..one.length]);
    true
}

#[test]
fn the_36_bytes_of_a_fifth_data_byte_come_back() {
    for reading in [Reading::Sawp, Reading::Rfc] {
        let mut store = [LENT; Record::SIZE];
        let m = decode(&FIFTH_BYTE, reading, Limits::default(), &mut store).unwrap();
        let back = written(m.header.into(), m.table(), &FIFTH_BYTE, 36);
        assert_eq!(back, FIFTH_BYTE);
    }
}

#[test]
fn every_accepted_message_of_the_sample_comes_back() {
    let sample = frames();
    let messages = sample.iter().filter(|frame| frame.function == 0);
    let accepted = messages.filter(|frame| message_comes_back(frame)).count();
    assert!(accepted > 2000, "only {accepted} messages are accepted");
}

#[test]
fn every_message_of_the_sample_accepted_by_an_edition_comes_back() {
    let sample = frames();
    let messages = sample.iter().filter(|frame| frame.function == 6);
    let accepted = messages
        .filter(|frame| message_comes_back_by(frame))
        .count();
    assert!(accepted > 700, "only {accepted} messages are accepted");
}

#[test]
fn every_accepted_avp_of_the_sample_comes_back() {
    let sample = frames();
    let avps = sample.iter().filter(|frame| frame.function == 2);
    let accepted = avps.filter(|frame| avp_comes_back(frame)).count();
    assert!(accepted > 900, "only {accepted} AVPs are accepted");
}

/// None, an index of the table or one past it, or the right one with a bit changed.
fn any_parent(random: &mut Random, right: Option<u32>, records: usize) -> Option<u32> {
    let bit = 1 << (random.next() % 32);
    match random.next() % 3 {
        0 => None,
        1 => Some(random.next() as u32 % (records as u32 + 1)),
        _ => Some(right.unwrap_or(Record::TOP_LEVEL) ^ bit),
    }
}

/// Changes the parent of one record, and sees that it is refused. Answers whether another was found.
fn other_parent_is_refused(random: &mut Random, m: &Message, input: &[u8]) -> bool {
    let records = m.records().len();
    let index = random.next() as usize % records;
    let mut table = m.table().to_vec();
    let row = table[index * Record::SIZE..].first_chunk_mut().unwrap();
    let mut record = Record::from_bytes(row);
    let right = record.parent;
    record.parent = any_parent(random, right, records);
    *row = record.to_bytes();
    let mut out = vec![LENT; m.length];
    let answer = write(m.header.into(), &table, input, &mut out);
    if record.parent == right {
        return false;
    }
    assert_eq!(answer, Err(Refusal::BadTable(index)), "{record:?}");
    assert_eq!(out, vec![LENT; m.length]);
    true
}

#[test]
fn no_message_of_the_sample_comes_back_with_another_parent() {
    let mut random = Random(9);
    let mut refused = 0;
    for frame in frames().iter().filter(|frame| frame.function == 0) {
        let mut store = frame.store();
        let answer = decode(&frame.input, frame.reading, frame.limits, &mut store);
        let Some(m) = answer.ok().filter(|m| m.records().len() > 0) else {
            continue;
        };
        for _ in 0..8 {
            refused += usize::from(other_parent_is_refused(&mut random, &m, &frame.input));
        }
    }
    assert!(refused > 10_000, "only {refused} tables are refused");
}
