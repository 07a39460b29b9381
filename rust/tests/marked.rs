//! The marked messages (docs/FORMAT.md, 10), P1 to P13, in both readings: each field of the answer and each byte of the store.

mod parents;

use parents::check_parents;
use tandrekily::error_flags::{DATA_LENGTH, DATA_VALUE};
use tandrekily::kinds::{GROUPED, UNHANDLED, UNSIGNED32};
use tandrekily::Refusal::{BadLength, Incomplete, NoRecords, NotTiled, NotVersion, TooDeep};
use tandrekily::{decode, header, Header, Limits, Message, Reading, Record, Refusal};

const LENT: u8 = 0xA5;

/// Some bytes past the last record.
const SPARE: usize = 5;

/// A message, the limits, and the answer.
struct Marked {
    name: &'static str,
    /// Hexadecimal; `00*16` is 16 bytes.
    hex: &'static str,
    depth: usize,
    capacity: usize,
    answer: Result<Accepted, Refusal>,
}

/// What an acceptance returns beside the header.
struct Accepted {
    length: usize,
    errors: u8,
    tried: usize,
    records: &'static [Record],
}

const fn refused(name: &'static str, hex: &'static str, refusal: Refusal) -> Marked {
    Marked {
        name,
        hex,
        depth: 64,
        capacity: 64,
        answer: Err(refusal),
    }
}

const fn accepted(name: &'static str, hex: &'static str, accepted: Accepted) -> Marked {
    Marked {
        name,
        hex,
        depth: 64,
        capacity: 64,
        answer: Ok(accepted),
    }
}

/// The record of the one AVP that these messages have: its data start at byte 28, and it has no flags.
const fn record(code: u32, length: u32, kind: u8, errors: u8, padding: u8, bits: u64) -> Record {
    Record {
        code,
        flags: 0,
        length,
        vendor_id: 0,
        place: 28,
        depth: 1,
        kind,
        errors,
        padding,
        pads: [0; 3],
        bits,
        parent: None,
    }
}

const fn of(length: usize, errors: u8, tried: usize, records: &'static [Record]) -> Accepted {
    Accepted {
        length,
        errors,
        tried,
        records,
    }
}

const P8: &str = "01 00 00 24 00*16 00 00 01 0C 00 00 00 0D 00 00 07 D1 00*4";
const P11: &str = "01 00 00 20 00*16 00 00 01 17 00 00 00 09 00*4";
const P12: &str = "01 00 00 1C 00*16 00 00 01 17 00 00 00 08";

const P12_ACCEPTED: Accepted = of(28, 0, 1, &[record(279, 8, GROUPED, 0, 0, 0)]);

const MARKED: [Marked; 15] = [
    refused("P1", "", Incomplete(1)),
    refused("P2", "02", NotVersion),
    refused("P3", "01 00", Incomplete(2)),
    refused("P4", "01 00 00 03", BadLength),
    refused("P5", "01 00 00 13 00*4", Incomplete(11)),
    refused("P6", "01 00 00 13 00*15", BadLength),
    accepted("P7", "01 00 00 14 00*16", of(20, 0, 0, &[])),
    accepted(
        "P8",
        P8,
        of(
            36,
            DATA_LENGTH,
            1,
            &[record(268, 13, UNSIGNED32, DATA_LENGTH, 3, 2001)],
        ),
    ),
    accepted(
        "P9",
        "01 00 00 20 00*16 00 00 01 0C 00 00 00 0B 00*4",
        of(
            32,
            DATA_LENGTH,
            1,
            &[record(268, 11, UNHANDLED, DATA_LENGTH, 1, 0)],
        ),
    ),
    refused(
        "P10",
        "01 00 00 21 00*16 00 00 01 0C 00 00 00 0D 00 00 07 D1 00",
        NotTiled,
    ),
    accepted(
        "P11",
        P11,
        of(
            32,
            DATA_VALUE,
            2,
            &[record(279, 9, UNHANDLED, DATA_VALUE, 3, 0)],
        ),
    ),
    Marked {
        depth: 1,
        ..refused("P11, depth limit 1", P11, TooDeep)
    },
    accepted("P12", P12, P12_ACCEPTED),
    Marked {
        depth: 1,
        ..accepted("P12, depth limit 1", P12, P12_ACCEPTED)
    },
    Marked {
        capacity: 0,
        ..refused("P13", P8, NoRecords(1))
    },
];

impl Marked {
    fn bytes(&self) -> Vec<u8> {
        let mut bytes = Vec::new();
        for word in self.hex.split_whitespace() {
            let (digits, times) = word.split_once('*').unwrap_or((word, "1"));
            let byte = u8::from_str_radix(digits, 16).expect("two digits");
            let times: usize = times.parse().expect("a number");
            bytes.resize(bytes.len() + times, byte);
        }
        bytes
    }
}

/// The header of these messages: all fields are 0 but version and length.
fn plain_header(length: usize) -> Header {
    Header {
        version: 1,
        length: length as u32,
        ..Header::default()
    }
}

fn check_message(name: &str, got: &Message, want: &Accepted) {
    assert_eq!(got.header, plain_header(want.length), "{name}: header");
    assert_eq!(got.errors, want.errors, "{name}: error flags");
    assert_eq!(got.tried, want.tried, "{name}: tried");
    assert_eq!(got.length, want.length, "{name}: length");
    let records: Vec<Record> = got.records().map(|avp| avp.record).collect();
    assert_eq!(records, want.records, "{name}: records");
    check_parents(got.records());
}

/// The store as it must be: the records and zeros to its end, or as it was lent.
fn store_after(answer: &Result<Accepted, Refusal>, size: usize) -> Vec<u8> {
    let Ok(accepted) = answer else {
        return vec![LENT; size];
    };
    let mut store: Vec<u8> = accepted.records.iter().flat_map(Record::to_bytes).collect();
    store.resize(size, 0);
    store
}

/// Decodes into a store, and checks all of it but `past` bytes, which must be as they were lent.
fn check(marked: &Marked, reading: Reading, limits: Limits, size: usize, past: usize) {
    let name = marked.name;
    let mut store = vec![LENT; size + past];
    match (
        decode(&marked.bytes(), reading, limits, &mut store),
        &marked.answer,
    ) {
        (Ok(got), Ok(want)) => check_message(name, &got, want),
        (got, want) => assert_eq!(got.err(), want.as_ref().err().copied(), "{name}: refusal"),
    }
    assert_eq!(
        store.split_off(size),
        vec![LENT; past],
        "{name}: past the limit"
    );
    assert_eq!(store, store_after(&marked.answer, size), "{name}: store");
}

#[test]
fn the_store_holds_so_many_records() {
    for marked in &MARKED {
        let limits = Limits {
            depth: marked.depth,
            ..Limits::default()
        };
        let size = marked.capacity * Record::SIZE + SPARE;
        check(marked, Reading::Sawp, limits, size, 0);
        check(marked, Reading::Rfc, limits, size, 0);
    }
}

#[test]
fn the_limit_cuts_a_larger_store() {
    for marked in &MARKED {
        let limits = Limits {
            depth: marked.depth,
            records: marked.capacity,
        };
        let size = marked.capacity * Record::SIZE;
        check(marked, Reading::Sawp, limits, size, Record::SIZE + SPARE);
        check(marked, Reading::Rfc, limits, size, Record::SIZE + SPARE);
    }
}

/// The header alone takes no limits and looks at no AVP, so P10 to P13 are accepted.
#[test]
fn the_header_alone() {
    for marked in &MARKED {
        let bytes = marked.bytes();
        let want = match marked.answer {
            Err(refusal) if bytes.len() < Header::SIZE => Err(refusal),
            _ => Ok((plain_header(bytes.len()), 0)),
        };
        assert_eq!(header(&bytes), want, "{}", marked.name);
    }
}
