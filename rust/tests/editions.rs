//! Messages and AVPs by an edition of the credit-control dictionary.

use std::net::IpAddr;
use tandrekily::{decode_avp, decode_avp_by, decode_by, kinds};
use tandrekily::{Edition, Limits, Reading, Record, Refusal, Value};

const LENT: u8 = 0xA5;

const EDITIONS: [Edition; 2] = [Edition::Rfc4006, Edition::Rfc8506];

const UNHANDLED: Value = Value::Unhandled { valid_up_to: 0 };

/// Numbers beside those of the editions, and two that are one's in their low 16 bits.
const NONE: [u32; 10] = [0, 1, 4005, 4007, 6733, 8505, 8507, 69_542, 74_042, u32::MAX];

/// A header and no AVP.
const EMPTY: [u8; 20] = [
    1, 0, 0, 20, 0, 0, 0, 0, 0, 0, 0, 0, 0, 0, 0, 0, 0, 0, 0, 0, //
];

/// An AVP of this code and these data.
fn avp(code: u32, data: &[u8]) -> Vec<u8> {
    let mut avp = code.to_be_bytes().to_vec();
    avp.extend((data.len() as u32 + 8).to_be_bytes());
    avp.extend(data);
    avp.resize(avp.len().next_multiple_of(4), 0);
    avp
}

/// A message with one AVP.
fn message(avp: &[u8]) -> Vec<u8> {
    let mut message = [&EMPTY, avp].concat();
    message[3] = message.len() as u8;
    message
}

/// Asserts what an AVP's value is by an edition, alone and in a message.
fn check(edition: Edition, code: u32, data: &[u8], value: Value) {
    let one = avp(code, data);
    let whole = message(&one);
    let (mut store, mut other) = ([LENT; 8 * Record::SIZE], [LENT; 8 * Record::SIZE]);
    let alone = decode_avp_by(&one, edition, Limits::default(), &mut store).unwrap();
    let inside = decode_by(&whole, edition, Limits::default(), &mut other).unwrap();
    for first in [alone.records().next(), inside.records().next()] {
        let first = first.unwrap();
        assert_eq!(first.value(), value, "code {code}, {edition:?}");
        assert_eq!(first.data(), Some(data), "code {code}, {edition:?}");
    }
}

fn check_both(code: u32, data: &[u8], value: Value) {
    for edition in EDITIONS {
        check(edition, code, data, value);
    }
}

#[test]
fn signed_numbers() {
    check_both(429, &[0xFF, 0xFF, 0xFF, 0xFE], Value::Integer32(-2));
    check_both(429, &[0x80, 0, 0, 0], Value::Integer32(i32::MIN));
    check_both(429, &[0, 0, 0, 18, 0], Value::Integer32(18));
    check_both(429, &[0, 0, 0], UNHANDLED);
    check_both(447, &[0xFF; 8], Value::Integer64(-1));
    check_both(
        447,
        &[0x80, 0, 0, 0, 0, 0, 0, 0],
        Value::Integer64(i64::MIN),
    );
    check_both(447, &[0, 0, 0, 0, 0, 0, 4, 26, 9], Value::Integer64(1050));
    check_both(447, &[0; 7], UNHANDLED);
}

#[test]
fn the_other_kinds() {
    check_both(411, &[0xFF], Value::OctetString(&[0xFF]));
    check_both(438, &[0xFF], Value::OctetString(&[0xFF]));
    check_both(415, &[0xFF; 4], Value::Unsigned32(u32::MAX));
    check_both(412, &[0xFF; 8], Value::Unsigned64(u64::MAX));
    check_both(445, &avp(447, &[0; 8]), Value::Grouped);
    check_both(445, &[0], UNHANDLED);
    check_both(416, &[0xFF; 4], Value::Enumerated(-1));
    check_both(424, "é".as_bytes(), Value::Utf8String("é"));
    check_both(424, &[0xFF], UNHANDLED);
    check_both(451, &[0xFF; 4], Value::Time(u32::MAX));
}

/// What only the later edition has.
#[test]
fn codes_of_rfc8506() {
    let address = Value::Address(IpAddr::from([192, 0, 2, 1]));
    let later: [(u32, &[u8], Value); 4] = [
        (653, &[], Value::Grouped),
        (654, b"id", Value::OctetString(b"id")),
        (660, b"text", Value::Utf8String("text")),
        (666, &[0, 1, 192, 0, 2, 1], address),
    ];
    for (code, data, value) in later {
        check(Edition::Rfc8506, code, data, value);
        check(Edition::Rfc4006, code, data, UNHANDLED);
    }
}

/// User-Name, and the text of both editions; then one of the later, which the earlier doesn't know.
#[test]
fn ill_formed_text_says_where_it_broke() {
    let (cut, at_1) = (b"a\xE2\x82", Value::Unhandled { valid_up_to: 1 });
    for code in [1, 424, 435, 444, 461] {
        check_both(code, cut, at_1);
        check_both(code, b"\xC0\x80ab", UNHANDLED);
    }
    check(Edition::Rfc8506, 667, cut, at_1);
    check(Edition::Rfc4006, 667, cut, UNHANDLED);
}

/// The kinds of all codes with 8 bytes of data that are text and no AVP.
fn kinds_of(kind_of: impl Fn(&[u8], &mut [u8]) -> u8) -> Vec<u8> {
    let mut store = [LENT; Record::SIZE];
    (0..=1000)
        .map(|code| kind_of(&avp(code, b"whatever"), &mut store))
        .collect()
}

fn first_kind(store: &[u8]) -> u8 {
    store[17]
}

/// Outside of its own codes an edition is the RFC reading; RFC 4006 has 411 to 461, and RFC 8506 also 653 to 669.
#[test]
fn an_edition_adds_its_codes_to_the_rfc_reading() {
    let by = |edition: Edition| {
        kinds_of(|input, store| {
            decode_avp_by(input, edition, Limits::default(), store).unwrap();
            first_kind(store)
        })
    };
    let rfc = kinds_of(|input, store| {
        decode_avp(input, Reading::Rfc, Limits::default(), store).unwrap();
        first_kind(store)
    });
    let (older, later) = (by(Edition::Rfc4006), by(Edition::Rfc8506));
    for code in 0..rfc.len() {
        let own = (411..=461).contains(&code);
        let added = (653..=669).contains(&code);
        assert!(own || older[code] == rfc[code], "code {code}");
        assert!(added || later[code] == older[code], "code {code}");
    }
    let signed = |kinds: &[u8], kind| kinds.iter().position(|&k| k == kind);
    assert_eq!(signed(&older, kinds::INTEGER32), Some(429));
    assert_eq!(signed(&older, kinds::INTEGER64), Some(447));
    assert_eq!(signed(&rfc, kinds::INTEGER32), None);
    assert_eq!(signed(&rfc, kinds::INTEGER64), None);
}

/// The answer of both functions by a number, for an input that neither accepts where there is no edition. The store must stay.
fn refused(input: &[u8], number: u32, depth: usize) -> Refusal {
    let limits = Limits {
        depth,
        ..Limits::default()
    };
    let mut store = [LENT; Record::SIZE];
    let whole = decode_by(input, number, limits, &mut store).unwrap_err();
    let alone = decode_avp_by(input, number, limits, &mut store).unwrap_err();
    assert_eq!(whole, alone, "edition {number}, depth {depth}");
    assert_eq!(store, [LENT; Record::SIZE]);
    whole
}

#[test]
fn no_edition_is_refused_after_the_depth_and_before_the_input() {
    for number in NONE {
        for input in [&[][..], &[2], &EMPTY] {
            assert_eq!(refused(input, number, 1), Refusal::BadEdition);
            assert_eq!(refused(input, number, 64), Refusal::BadEdition);
            assert_eq!(refused(input, number, 0), Refusal::BadDepth);
            assert_eq!(refused(input, number, 65), Refusal::BadDepth);
        }
    }
    for edition in EDITIONS {
        assert_eq!(refused(&[], edition.number(), 65), Refusal::BadDepth);
    }
}

#[test]
fn a_number_is_an_edition() {
    for edition in EDITIONS {
        assert_eq!(Edition::try_from(edition.number()), Ok(edition));
        assert_eq!(u32::from(edition), edition.number());
        assert!(decode_by(&EMPTY, edition.number(), Limits::default(), &mut []).is_ok());
    }
    assert_eq!(EDITIONS.map(Edition::number), [4006, 8506]);
    for number in NONE {
        assert_eq!(Edition::try_from(number), Err(Refusal::BadEdition));
    }
}

/// A Unit-Value with one member.
fn unit_value() -> Vec<u8> {
    avp(445, &avp(429, &[0, 0, 0, 1]))
}

fn records(records: usize) -> Limits {
    Limits {
        records,
        ..Limits::default()
    }
}

/// A group and its member, and past them the store as it was lent.
fn check_cut(depths: Vec<u8>, store: &[u8]) {
    assert_eq!(depths, [1, 2]);
    assert_eq!(store[2 * Record::SIZE..], [LENT; Record::SIZE]);
}

#[test]
fn the_limit_cuts_a_larger_store() {
    let input = message(&unit_value());
    let mut store = [LENT; 3 * Record::SIZE];
    let short = decode_by(&input, Edition::Rfc8506, records(1), &mut store).err();
    assert_eq!(short, Some(Refusal::NoRecords(2)));
    assert_eq!(store, [LENT; 3 * Record::SIZE]);
    let decoded = decode_by(&input, Edition::Rfc8506, records(2), &mut store).unwrap();
    let depths = decoded.records().map(|avp| avp.record.depth).collect();
    check_cut(depths, &store);
}

#[test]
fn the_limit_cuts_a_larger_store_of_one_avp() {
    let input = unit_value();
    let mut store = [LENT; 3 * Record::SIZE];
    let short = decode_avp_by(&input, Edition::Rfc4006, records(1), &mut store).err();
    assert_eq!(short, Some(Refusal::NoRecords(2)));
    assert_eq!(store, [LENT; 3 * Record::SIZE]);
    let decoded = decode_avp_by(&input, Edition::Rfc4006, records(2), &mut store).unwrap();
    let depths = decoded.records().map(|avp| avp.record.depth).collect();
    check_cut(depths, &store);
}
