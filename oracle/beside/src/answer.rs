//! The answers of docs/FORMAT.md, from what the Rust read, for any depth limit and capacity.

use sawp_diameter::diameter::inside::{self, Reading, Refusal, DEPTH_MAX, RECORD};

/// What a frame asks for.
pub const MESSAGE: u8 = 0;
pub const HEADER_ALONE: u8 = 1;
pub const AVP_ALONE: u8 = 2;

/// The program fills its store with this before each call.
pub const FILL: u8 = 0xA5;
/// Bytes of the store past the last whole record.
pub const SPARE: usize = 5;

/// The numbers (docs/FORMAT.md, 7.1) that a decoder gives.
pub const ACCEPTED: u8 = 0;
pub const INCOMPLETE: u8 = 1;
pub const NOT_VERSION: u8 = 2;
pub const BAD_LENGTH: u8 = 3;
pub const NOT_TILED: u8 = 4;
pub const TOO_DEEP: u8 = 5;
pub const NO_RECORDS: u8 = 6;
pub const BAD_DEPTH: u8 = 7;
pub const NAMES: [&str; 8] = [
    "accepted",
    "Incomplete",
    "NotVersion",
    "BadLength",
    "NotTiled",
    "TooDeep",
    "NoRecords",
    "BadDepth",
];

/// What a call gives, and the whole store after it.
#[derive(Debug, Clone, PartialEq, Eq)]
pub struct Answer {
    pub number: u8,
    pub amount: u32,
    pub accepted: Option<Accepted>,
    pub store: Vec<u8>,
}

/// What stands beside the number 0.
#[derive(Debug, Clone, PartialEq, Eq)]
pub struct Accepted {
    /// None for one AVP alone.
    pub header: Option<[u8; 20]>,
    pub flags: u8,
    pub records: u16,
    pub tried: u32,
    pub length: u32,
}

/// What the Rust reads in `bytes`.
pub fn read(function: u8, bytes: &[u8]) -> Result<Reading, Refusal> {
    match function {
        MESSAGE => inside::message(bytes),
        HEADER_ALONE => inside::header(bytes),
        AVP_ALONE => inside::avp(bytes),
        _ => panic!("no function {function}"),
    }
}

/// Bytes of the store that a capacity stands for.
pub fn store_size(capacity: u16) -> usize {
    capacity as usize * RECORD + SPARE
}

/// The answer for a depth limit and a capacity: BadDepth, what the Rust refuses, TooDeep, NoRecords.
pub fn answer(function: u8, limit: u8, capacity: u16, read: &Result<Reading, Refusal>) -> Answer {
    let refused = |number, amount: usize| Answer {
        number,
        amount: amount as u32,
        accepted: None,
        store: vec![FILL; store_size(capacity)],
    };
    // the header alone takes neither limit nor store
    let limited = function != HEADER_ALONE;
    if limited && !(1..=DEPTH_MAX).contains(&(limit as usize)) {
        return refused(BAD_DEPTH, 0);
    }
    let reading = match read {
        Ok(reading) => reading,
        Err(Refusal::Incomplete(n)) => return refused(INCOMPLETE, *n),
        Err(Refusal::NotVersion) => return refused(NOT_VERSION, 0),
        Err(Refusal::BadLength) => return refused(BAD_LENGTH, 0),
        Err(Refusal::NotTiled) => return refused(NOT_TILED, 0),
    };
    if limited && reading.deepest > limit as usize {
        return refused(TOO_DEEP, 0);
    }
    if reading.records.len() > capacity as usize {
        return refused(NO_RECORDS, reading.records.len());
    }
    let mut store = vec![FILL; store_size(capacity)];
    if limited {
        let records = reading.records.concat();
        store.fill(0);
        store[..records.len()].copy_from_slice(&records);
    }
    Answer {
        number: ACCEPTED,
        amount: 0,
        accepted: Some(Accepted {
            header: reading.header,
            flags: reading.flags,
            records: reading.records.len() as u16,
            tried: reading.tried as u32,
            length: reading.length as u32,
        }),
        store,
    }
}

// ---- what differs

const HEADER_FIELDS: [(&str, usize); 7] = [
    ("version", 0),
    ("length", 1),
    ("flags", 4),
    ("code", 5),
    ("application", 8),
    ("hop-by-hop", 12),
    ("end-to-end", 16),
];

const RECORD_FIELDS: [(&str, usize); 13] = [
    ("code", 0),
    ("flags", 4),
    ("length", 5),
    ("vendor", 8),
    ("place", 12),
    ("depth", 16),
    ("kind", 17),
    ("error flags", 18),
    ("padding count", 19),
    ("padding bytes", 20),
    ("byte 23", 23),
    ("value", 24),
    ("parent", 32),
];

// The name of the field that byte `at` belongs to.
fn field(fields: &[(&'static str, usize)], at: usize) -> &'static str {
    fields
        .iter()
        .rev()
        .find(|f| f.1 <= at)
        .expect("the first field starts at 0")
        .0
}

/// Each part in which `program` differs from `rust`, in words. None if they are equal.
pub fn differences(rust: &Answer, program: &Answer) -> Vec<String> {
    let mut out = Vec::new();
    if rust.number != program.number {
        out.push(format!(
            "number: the Rust {}, the program {}",
            numbered(rust.number),
            numbered(program.number)
        ));
    }
    differ(&mut out, "amount", rust.amount, program.amount);
    if let (Some(r), Some(p)) = (&rust.accepted, &program.accepted) {
        if let (Some(r), Some(p)) = (&r.header, &p.header) {
            if let Some(at) = (0..r.len()).find(|&i| r[i] != p[i]) {
                out.push(format!(
                    "header, {}: the Rust {}, the program {}",
                    field(&HEADER_FIELDS, at),
                    hex(r),
                    hex(p)
                ));
            }
        }
        differ(&mut out, "flags", r.flags, p.flags);
        differ(&mut out, "records", r.records, p.records);
        differ(&mut out, "tried", r.tried, p.tried);
        differ(&mut out, "length", r.length, p.length);
    }
    if rust.store != program.store {
        out.push(store_difference(rust, &program.store));
    }
    out
}

fn store_difference(rust: &Answer, program: &[u8]) -> String {
    let Some(at) = (0..program.len()).find(|&i| rust.store[i] != program[i]) else {
        return "the stores' lengths".to_string();
    };
    let records = rust.accepted.as_ref().map_or(0, |a| a.records as usize);
    if at < records * RECORD {
        let (i, from) = (at / RECORD, at / RECORD * RECORD);
        let (r, p) = (&rust.store[from..from + RECORD], &program[from..from + RECORD]);
        return format!(
            "record {i}, {}: the Rust {}, the program {}",
            field(&RECORD_FIELDS, at - from),
            hex(r),
            hex(p)
        );
    }
    let part = match rust.number {
        ACCEPTED if rust.store.len() - at <= SPARE => "spare byte of the store",
        ACCEPTED => "store after the last record",
        _ => "store after a refusal",
    };
    format!(
        "{part}, byte {at}: the Rust {:02x}, the program {:02x}",
        rust.store[at], program[at]
    )
}

fn differ<T: PartialEq + std::fmt::Display>(out: &mut Vec<String>, part: &str, rust: T, program: T) {
    if rust != program {
        out.push(format!("{part}: the Rust {rust}, the program {program}"));
    }
}

fn numbered(number: u8) -> String {
    format!("{number} {}", NAMES.get(number as usize).unwrap_or(&"(unknown)"))
}

/// Hexadecimal, a space after every four bytes.
pub fn hex(bytes: &[u8]) -> String {
    let words: Vec<String> = bytes
        .chunks(4)
        .map(|word| word.iter().map(|b| format!("{b:02x}")).collect())
        .collect();
    words.join(" ")
}
