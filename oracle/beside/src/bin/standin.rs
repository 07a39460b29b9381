//! Answers frames by the oracle itself, so that the comparison can be tried without the project's program.
//! `standin BREAK` gives wrong answers of one kind on purpose; `standin --breaks` lists the kinds.

use beside::answer::{answer, read, Answer, ACCEPTED, FILL, INCOMPLETE, NOT_TILED, NO_RECORDS, SPARE, TOO_DEEP};
use beside::frame::Frame;
use beside::with_stack;
use sawp_diameter::diameter::inside::{deepest_untiled, Reading, Refusal, RECORD, TOP_LEVEL};
use std::io::{stdin, stdout, BufReader, BufWriter, Write};

const BREAKS: [&str; 37] = [
    "number",       // NotTiled is called TooDeep
    "amount",       // one byte more is called absent
    "records-need", // NoRecords says one more
    "header",       // the end-to-end field is the hop-by-hop field
    "header-code",  // the command code loses its highest byte
    "flags",        // NonZeroPadding doesn't reach the message's flags
    "records",      // the count of records is one less
    "tried",        // the count of tried headers is that of the records
    "length",       // the length is that of the input
    "tail",         // the store is left as it was after the last record
    "spare",        // the spare bytes are left as they were
    "refused",      // a refusal writes into the store
    "no-records",   // a full store is too small
    "limit",        // one level deeper is allowed
    "limit-below",  // the last allowed level is refused
    "any-limit",    // every depth limit is taken
    "deep-first",   // TooDeep before NotTiled
    "full-first",   // NoRecords before TooDeep
    "filled",       // NoRecords where members of a failing group would fill the store
    "members",      // a group stands after its first member
    "surrogates",   // text with surrogates is taken
    "bad-byte",     // text broke one byte off
    "no-place",     // text broke at its first byte
    "group-broke",  // a group that fails has a place too
    "ipv6",         // an IPv6 address has a value
    "top-zero",     // a record of the top level has the parent 0
    "no-parent",    // a member has the mark of the top level
    "before",       // a member has the record before it
    "first",        // a member has the first record one depth less, not the last
    "last-group",   // a member has the last group, however deep
    "within",       // a member has its number within its group
    "one-more",     // a member has the record after its group
    "turned",       // a parent has its lowest byte first
    "header-store", // the header alone clears the store
    "stops",        // no answer after the thousandth
    "more",         // a byte after the last answer
    "fails",        // ends with a status that isn't 0
];

fn main() {
    let kind = std::env::args().nth(1).unwrap_or_default();
    if kind == "--breaks" {
        BREAKS.iter().for_each(|kind| println!("{kind}"));
        (0..RECORD).for_each(|at| println!("record:{at}"));
        return;
    }
    assert!(
        kind.is_empty() || BREAKS.contains(&kind.as_str()) || byte_of(&kind).is_some(),
        "no break {kind}"
    );
    with_stack(|| serve(&kind));
    if kind == "fails" {
        std::process::exit(3);
    }
}

fn serve(kind: &str) {
    let mut frames = BufReader::with_capacity(1 << 16, stdin());
    let mut answers = BufWriter::with_capacity(1 << 16, stdout());
    let mut done = 0;
    while let Some(frame) = Frame::read(&mut frames).expect("a whole frame") {
        let answer = broken(kind, &frame);
        if answers.write_all(&answer.to_bytes()).is_err() {
            return;
        }
        done += 1;
        if kind == "stops" && done == 1000 {
            return;
        }
    }
    if kind == "more" {
        answers.write_all(&[0]).expect("standard output");
    }
}

// The byte of every record that `record:N` alters.
fn byte_of(kind: &str) -> Option<usize> {
    kind.strip_prefix("record:")?.parse().ok().filter(|at| *at < RECORD)
}

fn broken(kind: &str, frame: &Frame) -> Answer {
    let found = read(frame.function, &frame.bytes);
    let right = |limit| answer(frame.function, limit, frame.capacity, &found);
    let mut a = match kind {
        "limit" if frame.limit < 64 && frame.limit > 0 => right(frame.limit + 1),
        "limit-below" if frame.limit > 1 && frame.limit <= 64 => right(frame.limit - 1),
        "any-limit" if frame.limit == 0 || frame.limit > 64 => right(64),
        _ => right(frame.limit),
    };
    let refuse = |a: &mut Answer, number, amount| {
        (a.number, a.amount, a.accepted) = (number, amount, None);
        a.store.fill(FILL);
    };
    match kind {
        "number" if a.number == NOT_TILED => a.number = TOO_DEEP,
        "amount" if a.number == INCOMPLETE => a.amount += 1,
        "records-need" if a.number == NO_RECORDS => a.amount += 1,
        "refused" if a.number != ACCEPTED => a.store[0] = 0,
        "deep-first" if a.number == NOT_TILED && deepest_untiled(&frame.bytes) > frame.limit as usize => {
            a.number = TOO_DEEP;
        }
        "filled" => {
            if a.accepted.as_ref().is_some_and(|g| g.tried > frame.capacity as u32) {
                refuse(&mut a, NO_RECORDS, frame.capacity as u32 + 1);
            }
        }
        "full-first" => {
            if let (Ok(reading), TOO_DEEP) = (&found, a.number) {
                if reading.records.len() > frame.capacity as usize {
                    refuse(&mut a, NO_RECORDS, reading.records.len() as u32);
                }
            }
        }
        "no-records" => {
            if a.accepted
                .as_ref()
                .is_some_and(|g| g.records > 0 && g.records == frame.capacity)
            {
                refuse(&mut a, NO_RECORDS, frame.capacity as u32);
            }
        }
        _ => break_acceptance(kind, frame, &found, &mut a),
    }
    a
}

// The parent that record `i` gets; none where a kind leaves it as it is.
fn wrong_parent(kind: &str, records: &[[u8; RECORD]], i: usize) -> Option<u32> {
    let right = u32::from_be_bytes(records[i][32..].try_into().unwrap());
    if right == TOP_LEVEL {
        return (kind == "top-zero").then_some(0);
    }
    let (mut earlier, above) = (records[..i].iter(), records[i][16] - 1);
    let found = match kind {
        "no-parent" => return Some(TOP_LEVEL),
        "turned" => return Some(right.swap_bytes()),
        "before" => Some(i - 1),
        "first" => earlier.position(|r| r[16] == above),
        "last-group" => earlier.rposition(|r| r[17] == 8),
        "within" => Some(i - right as usize),
        "one-more" => Some(right as usize + 1),
        _ => None,
    };
    found.map(|at| at as u32)
}

fn break_acceptance(kind: &str, frame: &Frame, found: &Result<Reading, Refusal>, a: &mut Answer) {
    let (Ok(reading), Some(given)) = (found, &mut a.accepted) else {
        return;
    };
    let records = reading.records.len();
    let size = a.store.len();
    match kind {
        "header" => {
            if let Some(header) = &mut given.header {
                header.copy_within(12..16, 16);
            }
        }
        "header-code" => {
            if let Some(header) = &mut given.header {
                header[5] = 0;
            }
        }
        "flags" => given.flags &= 7,
        "records" => given.records = given.records.saturating_sub(1),
        "tried" => given.tried = records as u32,
        "length" => given.length = frame.bytes.len() as u32,
        "tail" => a.store[records * RECORD..size - SPARE].fill(FILL),
        "spare" => a.store[size - SPARE..].fill(FILL),
        "header-store" if frame.function == 1 => a.store.fill(0),
        "members" => {
            for i in 1..records {
                if a.store[i * RECORD + 16] > a.store[(i - 1) * RECORD + 16] {
                    let (before, after) = a.store.split_at_mut(i * RECORD);
                    before[(i - 1) * RECORD..].swap_with_slice(&mut after[..RECORD]);
                }
            }
        }
        _ => {
            for (i, record) in a.store.chunks_exact_mut(RECORD).take(records).enumerate() {
                let place = u32::from_be_bytes(record[12..16].try_into().unwrap()) as usize;
                let data = &frame.bytes[place..];
                match kind {
                    // a surrogate and nothing else
                    "surrogates" if record[17] == 0 && record[18] == 1 && record[7] == 11 => {
                        if data[0] == 0xED && data[1] >= 0xA0 && data[1] < 0xC0 && data[2] & 0xC0 == 0x80 {
                            (record[17], record[18]) = (10, 0);
                        }
                    }
                    "bad-byte" if record[17] == 0 && record[31] > 0 => record[31] ^= 1,
                    "no-place" if record[17] == 0 => record[24..32].fill(0),
                    "group-broke" if record[17] == 0 && record[..4] == 279_u32.to_be_bytes() => record[31] = 1,
                    "ipv6" if record[17] == 13 && record[7] >= 24 => record[24..32].copy_from_slice(&data[8..16]),
                    _ => {
                        if let Some(at) = byte_of(kind) {
                            record[at] ^= 1;
                        }
                        if let Some(parent) = wrong_parent(kind, &reading.records, i) {
                            record[32..].copy_from_slice(&parent.to_be_bytes());
                        }
                    }
                }
            }
        }
    }
}
