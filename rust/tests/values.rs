//! Typed values in both readings.

mod frames;
mod random;
mod texts;

use frames::{be_u32, frames, LENT};
use random::Random;
use std::net::IpAddr;
use tandrekily::{
    decode, decode_avp, decode_by, error_flags, kinds, unix_seconds, Limits, Message, Reading,
    Record, Value,
};
use texts::longer_text;

const UNHANDLED: Value = broken_at(0);

const fn broken_at(valid_up_to: usize) -> Value<'static> {
    Value::Unhandled { valid_up_to }
}

/// An AVP of this code and these data.
fn avp(code: u32, data: &[u8]) -> Vec<u8> {
    let mut avp = code.to_be_bytes().to_vec();
    avp.extend((data.len() as u32 + 8).to_be_bytes());
    avp.extend(data);
    avp.resize(avp.len().next_multiple_of(4), 0);
    avp
}

/// Asserts what an AVP's value is in each of two readings.
fn check(code: u32, data: &[u8], sawp: Value, rfc: Value) {
    let input = avp(code, data);
    for (reading, want) in [(Reading::Sawp, sawp), (Reading::Rfc, rfc)] {
        let mut store = [LENT; 4 * Record::SIZE];
        let one = decode_avp(&input, reading, Limits::default(), &mut store).unwrap();
        let first = one.records().next().unwrap();
        assert_eq!(first.value(), want, "code {code}, {reading:?}");
        assert_eq!(first.data(), Some(data), "code {code}, {reading:?}");
    }
}

fn check_both(code: u32, data: &[u8], value: Value) {
    check(code, data, value, value);
}

fn address(text: &str) -> Value<'static> {
    Value::Address(text.parse::<IpAddr>().unwrap())
}

#[test]
fn numbers() {
    check_both(268, &[0, 0, 7, 0xD1], Value::Unsigned32(2001));
    check_both(
        287,
        &[0x80, 0, 0, 0, 0, 0, 0, 1],
        Value::Unsigned64(0x8000_0000_0000_0001),
    );
    check_both(55, &[0xFF; 4], Value::Time(u32::MAX));
    check_both(268, &[0, 0, 1], UNHANDLED);
}

/// Event-Timestamp as March 2036 begins, three weeks after the seconds since 1900 have passed 32 bits.
#[test]
fn a_time_after_2036_keeps_its_bits() {
    check_both(55, &1_963_904u32.to_be_bytes(), Value::Time(1_963_904));
    assert_eq!(unix_seconds(1_963_904), 2_087_942_400);
}

#[test]
fn an_enumerated_is_signed_in_the_rfc_reading() {
    check_both(480, &[0, 0, 0, 2], Value::Enumerated(2));
    check(
        480,
        &[0xFF; 4],
        Value::Enumerated(0xFFFF_FFFF),
        Value::Enumerated(-1),
    );
}

#[test]
fn texts_and_bytes() {
    check_both(44, &[0xFF, 0], Value::OctetString(&[0xFF, 0]));
    check_both(1, "zoë".as_bytes(), Value::Utf8String("zoë"));
    check_both(1, &[0xFF], UNHANDLED);
    check_both(264, b"a.example", Value::DiameterIdentity("a.example"));
    check_both(292, b"aaa://a", Value::DiameterUri("aaa://a"));
    check(
        25,
        b"class",
        Value::Utf8String("class"),
        Value::OctetString(b"class"),
    );
    check(283, b"realm", UNHANDLED, Value::DiameterIdentity("realm"));
    check_both(0, b"?", UNHANDLED);
}

/// User-Name, Origin-Host and Redirect-Host are text of three kinds.
#[test]
fn ill_formed_text_says_where_it_broke() {
    for code in [1, 264, 292] {
        check_both(code, b"a\xE2\x82", broken_at(1));
        check_both(code, b"\xC0\x80ab", broken_at(0));
        check_both(code, b"ab\xED\xA0\x80cd", broken_at(2));
        check_both(code, &[&[b'a'; 300][..], &[0xFF]].concat(), broken_at(300));
    }
    check(25, b"a\xFF", broken_at(1), Value::OctetString(b"a\xFF"));
    check(283, b"a\xFF", UNHANDLED, broken_at(1));
}

/// A group that does not tile, numbers and addresses of a wrong length, an address of another family, an unknown code.
#[test]
fn other_data_that_are_not_taken_say_0() {
    check_both(279, b"abcd", UNHANDLED);
    check_both(268, b"abc", UNHANDLED);
    check_both(287, b"abcd", UNHANDLED);
    check_both(257, b"\0\x01abc", UNHANDLED);
    check_both(257, b"abcdefg", UNHANDLED);
    check_both(0, b"a\xFF", UNHANDLED);
}

#[test]
fn the_record_of_ill_formed_text() {
    let input = avp(1, b"a\xE2\x82");
    for reading in [Reading::Sawp, Reading::Rfc] {
        let mut store = [LENT; Record::SIZE];
        let one = decode_avp(&input, reading, Limits::default(), &mut store).unwrap();
        let record = one.records().next().unwrap().record;
        assert_eq!(record.kind, kinds::UNHANDLED);
        assert_eq!(record.errors, error_flags::DATA_VALUE);
        assert_eq!(record.bits, 1);
    }
}

#[test]
fn a_user_name_breaks_where_the_standard_library_says() {
    let mut random = Random(5);
    let mut broken = 0;
    for _ in 0..20_000 {
        let data = longer_text(&mut random);
        let value = match std::str::from_utf8(&data) {
            Ok(text) => Value::Utf8String(text),
            Err(error) => broken_at(error.valid_up_to()),
        };
        broken += usize::from(matches!(value, Value::Unhandled { .. }));
        check_both(1, &data, value);
    }
    assert!((5_000..15_000).contains(&broken), "{broken} are broken");
}

#[test]
fn groups() {
    check_both(279, &[], Value::Grouped);
    check_both(279, &avp(268, &[0; 4]), Value::Grouped);
    check_both(279, &[0], UNHANDLED);
}

#[test]
fn addresses() {
    let v6 = [0x20, 1, 0x0D, 0xB8, 0, 0, 0, 0, 0, 0, 0, 0, 0, 0, 0, 9];
    let rfc_v6 = [&[0, 2], &v6[..]].concat();
    check(257, &[192, 0, 2, 1], address("192.0.2.1"), UNHANDLED);
    check(257, &v6, address("2001:db8::9"), UNHANDLED);
    check(257, &[0, 1, 192, 0, 2, 1], UNHANDLED, address("192.0.2.1"));
    check(257, &rfc_v6, UNHANDLED, address("2001:db8::9"));
    check_both(257, &[], UNHANDLED);
}

/// Kinds that no code of a reading yields are read from the record's bits.
#[test]
fn kinds_of_tables_alone() {
    let of = |kind, bits| {
        let record = Record {
            kind,
            bits,
            ..Record::default()
        };
        Value::new(&record, Reading::Rfc, &[])
    };
    assert_eq!(of(kinds::INTEGER32, 0xFFFF_FFFE), Value::Integer32(-2));
    assert_eq!(of(kinds::INTEGER64, u64::MAX), Value::Integer64(-1));
    assert_eq!(of(kinds::FLOAT32, 0x3FC0_0000), Value::Float32(1.5));
    assert_eq!(
        of(kinds::FLOAT64, 0x3FF8_0000_0000_0000),
        Value::Float64(1.5)
    );
    assert_eq!(of(15, 1), UNHANDLED);
}

/// The values of a record whose data are the last three bytes of an input, and of one whose data go a byte past it.
fn at_the_end(record: Record) -> [Value<'static>; 2] {
    let input = b"...abc";
    let length = record.header_size() as u32 + 3;
    [3, 4].map(|place| {
        let record = Record {
            length,
            place,
            ..record
        };
        Value::new(&record, Reading::Rfc, input)
    })
}

/// A table that isn't the decoder's may say that the data broke past their end, or at a byte though they aren't there.
#[test]
fn a_break_outside_the_data_is_not_taken() {
    for flags in [0, Record::VENDOR_SPECIFIC_FLAG] {
        let of = |kind, bits| {
            at_the_end(Record {
                kind,
                bits,
                flags,
                ..Record::default()
            })
        };
        assert_eq!(of(kinds::UNHANDLED, 2), [broken_at(2), UNHANDLED]);
        for bits in [3, 4, 1 << 32, (1 << 32) + 1, u64::MAX] {
            assert_eq!(of(kinds::UNHANDLED, bits), [UNHANDLED; 2]);
        }
        assert_eq!(of(15, 2), [UNHANDLED; 2]);
        assert_eq!(of(kinds::UTF8_STRING, 2)[1], UNHANDLED);
    }
}

/// Counts the records by their kinds. The value of each must be of its kind.
fn count_kinds(m: &Message, seen: &mut [usize; 15]) {
    for avp in m.records() {
        let unhandled = matches!(avp.value(), Value::Unhandled { .. });
        assert_eq!(
            unhandled,
            avp.record.kind == kinds::UNHANDLED,
            "{:?}",
            avp.record
        );
        assert!(avp.data().is_some(), "{:?}", avp.record);
        seen[usize::from(avp.record.kind)] += 1;
    }
}

/// The kinds that no record has.
fn absent(seen: &[usize; 15]) -> Vec<usize> {
    (0..15).filter(|&kind| seen[kind] == 0).collect()
}

#[test]
fn every_record_of_the_sample_has_the_value_of_its_kind() {
    let mut seen = [0; 15];
    for frame in frames().iter().filter(|frame| frame.function == 0) {
        let mut store = frame.store();
        if let Ok(m) = decode(&frame.input, frame.reading, frame.limits, &mut store) {
            count_kinds(&m, &mut seen);
        }
    }
    assert_eq!(absent(&seen), [2, 3, 6, 7]);
}

#[test]
fn every_record_by_an_edition_has_the_value_of_its_kind() {
    let mut seen = [0; 15];
    for frame in frames().iter().filter(|frame| frame.function == 6) {
        let (edition, input) = frame.input.split_at(4);
        let mut store = frame.store();
        if let Ok(m) = decode_by(input, be_u32(edition), frame.limits, &mut store) {
            count_kinds(&m, &mut seen);
        }
    }
    assert_eq!(absent(&seen), [6, 7]);
}
