//! RADIUS: case by case, and packets and tables at random against a second writing of the rules.

mod parents;
mod random;
mod texts;

use std::net::Ipv4Addr;
use std::str::from_utf8;

use parents::check_parents;
use random::Random;
use tandrekily::radius::{decode, records, write, Header, MOST_LENGTH, MOST_RECORDS};
use tandrekily::{error_flags, kinds, Record, Refusal, Value};
use texts::longer_text;

const LENT: u8 = 0xA5;

const HEADER: Header = Header {
    code: 4,
    identifier: 7,
    authenticator: *b"0123456789abcdef",
};

const UNHANDLED: Value = Value::Unhandled { valid_up_to: 0 };

/// An attribute of this type and these data.
fn attribute(code: u8, data: &[u8]) -> Vec<u8> {
    let length = u8::try_from(data.len() + 2).expect("data of an attribute");
    [&[code, length], data].concat()
}

/// A packet that states this length, whatever stands behind its header.
fn stating(length: usize, attributes: &[u8]) -> Vec<u8> {
    let [.., high, low] = length.to_be_bytes();
    let front = [HEADER.code, HEADER.identifier, high, low];
    [&front, &HEADER.authenticator[..], attributes].concat()
}

fn packet(attributes: &[u8]) -> Vec<u8> {
    stating(Header::SIZE + attributes.len(), attributes)
}

// ---- the rules, written a second time

fn kind(code: u8) -> u8 {
    match code {
        11 | 18 | 22 | 44 => kinds::UTF8_STRING,
        4 | 8 | 9 | 14 => kinds::ADDRESS,
        5..=7 | 10 | 12 | 13 | 15 | 16 | 23 | 27..=29 | 37 | 38 => kinds::UNSIGNED32,
        40..=43 | 45..=49 | 51 | 61 | 62 => kinds::UNSIGNED32,
        1..=3 | 19 | 20 | 24..=26 | 30..=36 | 39 | 50 | 60 | 63 => kinds::OCTET_STRING,
        _ => kinds::UNHANDLED,
    }
}

/// Kind, error flags and bits.
fn found(code: u8, data: &[u8]) -> (u8, u8, u64) {
    match kind(code) {
        kinds::UTF8_STRING => match from_utf8(data) {
            Ok(_) => (kinds::UTF8_STRING, 0, 0),
            Err(error) => {
                let valid = error.valid_up_to() as u64;
                (kinds::UNHANDLED, error_flags::DATA_VALUE, valid)
            }
        },
        kind @ (kinds::ADDRESS | kinds::UNSIGNED32) => match data.try_into() {
            Ok(four) => (kind, 0, u32::from_be_bytes(four).into()),
            Err(_) => (kinds::UNHANDLED, error_flags::DATA_LENGTH, 0),
        },
        kind => (kind, 0, 0),
    }
}

fn row(code: u8, place: usize, data: &[u8]) -> Record {
    let (kind, errors, bits) = found(code, data);
    Record {
        code: code.into(),
        length: data.len() as u32 + 2,
        place: place as u32,
        depth: 1,
        kind,
        errors,
        bits,
        ..Record::default()
    }
}

/// None where the attributes don't cover the packet.
fn rows(packet: &[u8]) -> Option<Vec<Record>> {
    let mut rows = Vec::new();
    let mut rest = &packet[Header::SIZE..];
    while !rest.is_empty() {
        let place = packet.len() - rest.len() + 2;
        let length = usize::from(*rest.get(1)?);
        rows.push(row(rest[0], place, rest.get(2..length)?));
        rest = &rest[length..];
    }
    Some(rows)
}

fn decoded(input: &[u8], room: usize) -> Result<(usize, Vec<Record>), Refusal> {
    let Some(&[_, _, high, low]) = input.first_chunk() else {
        return Err(Refusal::Incomplete(4 - input.len()));
    };
    let length = usize::from(high) * 256 + usize::from(low);
    if !(Header::SIZE..=4096).contains(&length) {
        return Err(Refusal::BadLength);
    }
    if input.len() < length {
        return Err(Refusal::Incomplete(length - input.len()));
    }
    let rows = rows(&input[..length]).ok_or(Refusal::NotTiled)?;
    if room / Record::SIZE < rows.len() {
        return Err(Refusal::NoRecords(rows.len()));
    }
    Ok((length, rows))
}

fn keeps(r: &Record, pool: &[u8]) -> bool {
    let end = u64::from(r.place) + u64::from(r.length);
    let unpadded = (r.padding, r.pads) == (0, [0; 3]);
    let fixed = unpadded && (r.depth, r.parent, r.flags, r.vendor_id) == (1, None, 0, 0);
    fixed && r.code <= 255 && (2..=255).contains(&r.length) && end <= pool.len() as u64 + 2
}

fn written(table: &[u8], pool: &[u8], room: usize) -> Result<Vec<u8>, Refusal> {
    let mut attributes = Vec::new();
    let rows = table.chunks_exact(Record::SIZE);
    for (index, row) in rows.clone().enumerate() {
        let r = Record::from_bytes(row.try_into().unwrap());
        if !keeps(&r, pool) {
            return Err(Refusal::BadTable(index));
        }
        let data = &pool[r.place as usize..][..r.length as usize - 2];
        attributes.extend(attribute(r.code as u8, data));
    }
    let packet = packet(&attributes);
    if !rows.remainder().is_empty() {
        Err(Refusal::BadTable(rows.len()))
    } else if packet.len() > 4096 {
        Err(Refusal::TooLong)
    } else if room < packet.len() {
        Err(Refusal::NoRoom(packet.len()))
    } else {
        Ok(packet)
    }
}

// ---- calls, compared with them

/// Decodes, looks at every byte that was lent, and writes back what is accepted. Answers whether it is.
fn check_decode(input: &[u8], room: usize) -> Result<(), Refusal> {
    let mut store = vec![LENT; room];
    let expected = decoded(input, room);
    let packet = match decode(input, &mut store) {
        Ok(packet) => packet,
        Err(refusal) => {
            assert_eq!(expected, Err(refusal));
            assert_eq!(store, vec![LENT; room]);
            return Err(refusal);
        }
    };
    let (length, rows) = expected.unwrap();
    let errors = rows.iter().fold(0, |errors, row| errors | row.errors);
    assert_eq!((packet.length, packet.errors), (length, errors));
    assert_eq!(packet.header.code, input[0]);
    assert_eq!(packet.header.identifier, input[1]);
    assert_eq!(packet.header.authenticator, input[4..20]);
    assert!(packet.records().map(|attribute| attribute.record).eq(rows));
    check_parents(packet.records());
    let (header, table) = (packet.header, packet.table().to_vec());
    assert_eq!(store[..table.len()], table);
    assert!(store[table.len()..].iter().all(|&byte| byte == 0));
    let mut out = vec![LENT; length + 7];
    assert_eq!(write(header, &table, input, &mut out), Ok(length));
    assert_eq!(out[..length], input[..length]);
    assert_eq!(out[length..], [LENT; 7]);
    Ok(())
}

fn check_write(table: &[u8], pool: &[u8], room: usize) -> Result<usize, Refusal> {
    let mut out = vec![LENT; room];
    let expected = written(table, pool, room);
    let answer = write(HEADER, table, pool, &mut out);
    assert_eq!(
        answer,
        expected.as_ref().map(Vec::len).map_err(|&refusal| refusal)
    );
    let packet = expected.unwrap_or_default();
    assert_eq!(out[..packet.len()], packet);
    assert!(out[packet.len()..].iter().all(|&byte| byte == LENT));
    answer
}

// ---- reading

#[test]
fn what_the_reader_refuses() {
    let name = attribute(1, b"bob");
    let names = name.repeat(3);
    let refused = [
        (vec![], 64, Refusal::Incomplete(4)),
        (vec![4], 64, Refusal::Incomplete(3)),
        (vec![4, 7, 0], 64, Refusal::Incomplete(1)),
        (vec![4, 7, 0, 19], 64, Refusal::BadLength),
        (stating(19, &[]), 64, Refusal::BadLength),
        (vec![4, 7, 0, 20], 64, Refusal::Incomplete(16)),
        (vec![4, 7, 16, 0], 64, Refusal::Incomplete(4092)),
        (vec![4, 7, 16, 1], 64, Refusal::BadLength),
        (stating(4097, &[1; 4077]), 64, Refusal::BadLength),
        (stating(26, &name), 64, Refusal::Incomplete(1)),
        (packet(&[1]), 64, Refusal::NotTiled),
        (packet(&[1, 0]), 64, Refusal::NotTiled),
        (packet(&[1, 1]), 64, Refusal::NotTiled),
        (packet(&[1, 1, 2]), 64, Refusal::NotTiled),
        (packet(&[1, 3]), 64, Refusal::NotTiled),
        (packet(&[&name[..], &[1]].concat()), 64, Refusal::NotTiled),
        (packet(&name[..4]), 64, Refusal::NotTiled),
        (stating(24, &name), 0, Refusal::NotTiled),
        (packet(&name), 0, Refusal::NoRecords(1)),
        (packet(&name), Record::SIZE - 1, Refusal::NoRecords(1)),
        (packet(&names), 3 * Record::SIZE - 1, Refusal::NoRecords(3)),
    ];
    for (input, room, refusal) in refused {
        assert_eq!(check_decode(&input, room), Err(refusal), "{input:?}");
    }
}

#[test]
fn a_packet_cut_anywhere() {
    let whole = packet(&[attribute(1, b"bob"), attribute(5, &[0; 4])].concat());
    for kept in 4..whole.len() {
        let absent = Refusal::Incomplete(whole.len() - kept);
        assert_eq!(check_decode(&whole[..kept], 64), Err(absent));
        let shorter = stating(kept.max(20), &whole[20..kept.max(20)]);
        let tiles = [20, 25].contains(&kept.max(20));
        assert_eq!(check_decode(&shorter, 64).is_ok(), tiles, "{kept} bytes");
    }
}

#[test]
fn what_is_past_the_packet_is_not_looked_at() {
    let name = attribute(1, b"bob");
    for past in [&[1][..], &[1, 0], &name] {
        let input = [&packet(&name), past].concat();
        assert_eq!(check_decode(&input, 64), Ok(()));
        let mut store = [LENT; 64];
        assert_eq!(decode(&input, &mut store).unwrap().length, 25);
    }
}

#[test]
fn every_header() {
    for byte in 0..=255 {
        let mut input = packet(&[]);
        input[0] = byte;
        input[1] = !byte;
        input[4..].fill(byte);
        assert_eq!(check_decode(&input, 0), Ok(()));
    }
}

#[test]
fn the_most_attributes() {
    assert_eq!((MOST_LENGTH, MOST_RECORDS), (4096, 2038));
    let full = packet(&attribute(1, b"").repeat(MOST_RECORDS));
    assert_eq!(full.len(), MOST_LENGTH);
    let room = MOST_RECORDS * Record::SIZE;
    assert_eq!(check_decode(&full, room), Ok(()));
    assert_eq!(check_decode(&full, room + Record::SIZE + 8), Ok(()));
    let few = Err(Refusal::NoRecords(MOST_RECORDS));
    assert_eq!(check_decode(&full, room - 1), few);
}

/// The record of one attribute, and its value.
fn check_value(code: u8, data: &[u8], errors: u8, value: Value) {
    let input = packet(&attribute(code, data));
    let mut store = [LENT; 2 * Record::SIZE];
    let decoded = decode(&input, &mut store).unwrap();
    let first = decoded.records().next().unwrap();
    assert_eq!(first.value(), value, "type {code}");
    assert_eq!(first.data(), Some(data), "type {code}");
    assert_eq!((first.record.errors, decoded.errors), (errors, errors));
    assert_eq!(decoded.records().len(), 1);
}

#[test]
fn values() {
    let broken = |valid_up_to| Value::Unhandled { valid_up_to };
    let address = Value::Address(Ipv4Addr::new(192, 0, 2, 16).into());
    let (text, size) = (error_flags::DATA_VALUE, error_flags::DATA_LENGTH);
    check_value(44, "é1".as_bytes(), 0, Value::Utf8String("é1"));
    check_value(44, b"", 0, Value::Utf8String(""));
    check_value(18, b"a\xE2\x82", text, broken(1));
    check_value(22, b"\xFF", text, UNHANDLED);
    check_value(11, &[&[b'a'; 252][..], b"\xC3"].concat(), text, broken(252));
    check_value(4, &[192, 0, 2, 16], 0, address);
    check_value(8, &[0, 1, 192, 0, 2, 16], size, UNHANDLED);
    check_value(9, &[0; 16], size, UNHANDLED);
    check_value(5, &[0x80, 0, 0, 1], 0, Value::Unsigned32(0x8000_0001));
    check_value(40, &[0, 0, 1], size, UNHANDLED);
    check_value(61, b"", size, UNHANDLED);
    check_value(1, b"a\xFF", 0, Value::OctetString(b"a\xFF"));
    check_value(
        26,
        b"\0\0\0\x09\x01\x03a",
        0,
        Value::OctetString(b"\0\0\0\x09\x01\x03a"),
    );
    check_value(87, b"abcd", 0, UNHANDLED);
    check_value(0, b"\xFF", 0, UNHANDLED);
}

/// As text the data break at byte 2.
#[test]
fn every_type_and_size() {
    for code in 0..=255 {
        for size in 0..=253 {
            let input = packet(&attribute(
                code,
                &[&b"ab\xFFde"[..], &[0xC3; 248]].concat()[..size],
            ));
            assert_eq!(check_decode(&input, Record::SIZE + 5), Ok(()));
        }
    }
}

#[test]
fn flags_are_joined() {
    let bad = [
        attribute(18, b"\xFF"),
        attribute(1, b"\xFF"),
        attribute(41, b"a"),
        attribute(44, b"a"),
    ];
    let input = packet(&bad.concat());
    let mut store = [LENT; 4 * Record::SIZE];
    let decoded = decode(&input, &mut store).unwrap();
    let errors: Vec<u8> = decoded
        .records()
        .map(|attribute| attribute.record.errors)
        .collect();
    assert_eq!(errors, [1, 0, 2, 0]);
    assert_eq!(
        decoded.errors,
        error_flags::DATA_VALUE | error_flags::DATA_LENGTH
    );
}

fn check_values(input: &[u8], expected: &[(u32, Value)]) {
    let mut store = [LENT; 4 * Record::SIZE];
    let decoded = decode(input, &mut store).unwrap();
    let records = decoded.records();
    let values: Vec<_> = records.map(|a| (a.record.code, a.value())).collect();
    assert_eq!((decoded.errors, &values[..]), (0, expected));
    assert_eq!(check_decode(input, 4 * Record::SIZE), Ok(()));
}

/// The packets of RFC 2865, section 7, with what is said there of their attributes.
#[test]
fn the_examples_of_the_rfc() {
    let host = |last| Value::Address(Ipv4Addr::new(192, 168, 1, last).into());
    let password = b"\x0D\xBE\x70\x8D\x93\xD4\x13\xCE\x31\x96\xE4\x3F\x78\x2A\x0A\xEE";
    let request = b"\x01\0\0\x38\x0F\x40\x3F\x94\x73\x97\x80\x57\xBD\x83\xD5\xCB\x98\xF4\x22\x7A\
        \x01\x06nemo\
        \x02\x12\x0D\xBE\x70\x8D\x93\xD4\x13\xCE\x31\x96\xE4\x3F\x78\x2A\x0A\xEE\
        \x04\x06\xC0\xA8\x01\x10\
        \x05\x06\0\0\0\x03";
    check_values(
        request,
        &[
            (1, Value::OctetString(b"nemo")),
            (2, Value::OctetString(password)),
            (4, host(16)),
            (5, Value::Unsigned32(3)),
        ],
    );
    let accept = b"\x02\0\0\x26\x86\xFE\x22\x0E\x76\x24\xBA\x2A\x10\x05\xF6\xBF\x9B\x55\xE0\xB2\
        \x06\x06\0\0\0\x01\
        \x0F\x06\0\0\0\0\
        \x0E\x06\xC0\xA8\x01\x03";
    check_values(
        accept,
        &[
            (6, Value::Unsigned32(1)),
            (15, Value::Unsigned32(0)),
            (14, host(3)),
        ],
    );
    let challenge =
        b"\x0B\x02\0\x4E\x36\xF3\xC8\x76\x4A\xE8\xC7\x11\x57\x40\x3C\x0C\x71\xFF\x9C\x45\
        \x12\x30Challenge 32769430.  Enter response at prompt.\
        \x18\x0A32769430";
    let words = "Challenge 32769430.  Enter response at prompt.";
    check_values(
        challenge,
        &[
            (18, Value::Utf8String(words)),
            (24, Value::OctetString(b"32769430")),
        ],
    );
}

// ---- writing

/// The record of "bob".
const NAME: Record = Record {
    code: 1,
    flags: 0,
    length: 5,
    vendor_id: 0,
    place: 0,
    depth: 1,
    kind: kinds::OCTET_STRING,
    errors: 0,
    padding: 0,
    pads: [0; 3],
    bits: 0,
    parent: None,
};

#[test]
fn what_a_record_may_not_have() {
    let bad = [
        Record { code: 256, ..NAME },
        Record {
            code: 0x0100_0001,
            ..NAME
        },
        Record {
            flags: 0x40,
            ..NAME
        },
        Record {
            length: 0,
            place: 2,
            ..NAME
        },
        Record {
            length: 1,
            place: 1,
            ..NAME
        },
        Record { length: 6, ..NAME },
        Record {
            length: 0x01_0005,
            ..NAME
        },
        Record {
            vendor_id: 1,
            ..NAME
        },
        Record {
            vendor_id: 1 << 24,
            ..NAME
        },
        Record { place: 1, ..NAME },
        Record {
            place: u32::MAX,
            ..NAME
        },
        Record {
            place: 4,
            length: 2,
            ..NAME
        },
        Record { depth: 0, ..NAME },
        Record { depth: 2, ..NAME },
        Record { padding: 1, ..NAME },
        Record {
            pads: [1, 0, 0],
            ..NAME
        },
        Record {
            pads: [0, 1, 0],
            ..NAME
        },
        Record {
            pads: [0, 0, 1],
            ..NAME
        },
        Record {
            parent: Some(0),
            ..NAME
        },
        Record {
            parent: Some(0xFFFF),
            ..NAME
        },
        Record {
            parent: Some(u32::MAX - 1),
            ..NAME
        },
    ];
    for record in bad {
        let (good, bad) = (NAME.to_bytes(), record.to_bytes());
        let tables = [(&[bad, bad][..], 0), (&[good, bad, good], 1)];
        for (table, index) in tables {
            let answer = check_write(&table.concat(), b"bob", 64);
            assert_eq!(answer, Err(Refusal::BadTable(index)), "{record:?}");
        }
    }
    let long = Record {
        length: 256,
        ..NAME
    };
    let answer = check_write(&long.to_bytes(), &[0; 300], 300);
    assert_eq!(answer, Err(Refusal::BadTable(0)));
}

#[test]
fn what_a_record_may_have() {
    let good = [
        (Record { code: 0, ..NAME }, 25),
        (Record { code: 255, ..NAME }, 25),
        (
            Record {
                place: 3,
                length: 2,
                ..NAME
            },
            22,
        ),
        (
            Record {
                place: 1,
                length: 4,
                ..NAME
            },
            24,
        ),
        (
            Record {
                kind: 255,
                errors: 255,
                bits: u64::MAX,
                ..NAME
            },
            25,
        ),
    ];
    for (record, total) in good {
        let mut row = record.to_bytes();
        row[23] = 255;
        assert_eq!(check_write(&row, b"bob", 32), Ok(total), "{record:?}");
    }
}

#[test]
fn bytes_left_over() {
    let table = NAME.to_bytes().repeat(2);
    for left_over in 1..Record::SIZE {
        let table = [&table[..], &vec![0; left_over]].concat();
        assert_eq!(check_write(&table, b"bob", 64), Err(Refusal::BadTable(2)));
        assert_eq!(check_write(&table, b"bo", 64), Err(Refusal::BadTable(0)));
    }
    assert_eq!(check_write(&[0], b"", 64), Err(Refusal::BadTable(0)));
}

/// 15 attributes of 255 bytes and one of 251 are 4,096 with the header.
#[test]
fn the_total() {
    let of = |length| Record { length, ..NAME }.to_bytes();
    let table = |last| [of(255).repeat(15), of(last).to_vec()].concat();
    let pool = [b'a'; 300];
    let bad = Record { depth: 2, ..NAME }.to_bytes();
    assert_eq!(check_write(&table(251), &pool, 4100), Ok(4096));
    assert_eq!(
        check_write(&table(251), &pool, 4095),
        Err(Refusal::NoRoom(4096))
    );
    assert_eq!(check_write(&table(252), &pool, 4100), Err(Refusal::TooLong));
    assert_eq!(check_write(&table(252), &pool, 0), Err(Refusal::TooLong));
    let answer = check_write(&[&table(252), &bad[..]].concat(), &pool, 0);
    assert_eq!(answer, Err(Refusal::BadTable(16)));
    assert_eq!(check_write(&of(2).repeat(2038), b"", 4096), Ok(4096));
    assert_eq!(
        check_write(&of(2).repeat(2039), b"", 4098),
        Err(Refusal::TooLong)
    );
}

#[test]
fn the_room() {
    assert_eq!(check_write(&[], b"", 20), Ok(20));
    assert_eq!(check_write(&[], b"", 19), Err(Refusal::NoRoom(20)));
    assert_eq!(check_write(&NAME.to_bytes(), b"bob", 25), Ok(25));
    assert_eq!(
        check_write(&NAME.to_bytes(), b"bob", 24),
        Err(Refusal::NoRoom(25))
    );
    assert_eq!(
        check_write(&NAME.to_bytes(), b"bob", 0),
        Err(Refusal::NoRoom(25))
    );
}

// ---- at random

fn below(random: &mut Random, bound: usize) -> usize {
    random.next() as usize % bound
}

/// An attribute of any type; its data are text, or nearly, four bytes, or any.
fn any_attribute(random: &mut Random) -> Vec<u8> {
    let code = below(random, 70) as u8;
    match below(random, 4) {
        0 => attribute(code, &random.next().to_be_bytes()[..4]),
        1 => attribute(code, &random.next().to_be_bytes()),
        _ => attribute(code, &longer_text(random)),
    }
}

/// Now and then a byte is another, the length is, or bytes are absent or more than the packet's.
fn any_packet(random: &mut Random) -> Vec<u8> {
    let count = below(random, 12);
    let attributes: Vec<u8> = (0..count).flat_map(|_| any_attribute(random)).collect();
    let mut packet = packet(&attributes);
    match below(random, 8) {
        0 => {
            let at = below(random, packet.len());
            packet[at] = random.next() as u8;
        }
        1 => packet = stating(below(random, 5000), &attributes),
        2 => packet.truncate(below(random, packet.len())),
        3 => packet.extend(any_attribute(random)),
        _ => (),
    }
    packet
}

#[test]
fn any_packet_is_answered() {
    let mut random = Random(0x9E37_79B9_7F4A_7C15);
    let mut answers = [0; 14];
    for _ in 0..20_000 {
        let input = any_packet(&mut random);
        let room = below(&mut random, 14) * Record::SIZE + below(&mut random, 40);
        let number = check_decode(&input, room).map_or_else(Refusal::number, |()| 0);
        answers[usize::from(number)] += 1;
    }
    for number in [0, 1, 3, 4, 6] {
        assert!(answers[number] > 100, "answers: {answers:?}");
    }
}

/// Good records but for their places, and in every fourth table a byte is another.
fn any_table(random: &mut Random) -> Vec<u8> {
    let count = below(random, 8) * below(random, 8);
    let mut table: Vec<u8> = (0..count)
        .flat_map(|_| {
            Record {
                code: below(random, 256) as u32,
                length: 2 + below(random, 254) as u32,
                place: below(random, 900) as u32,
                ..NAME
            }
            .to_bytes()
        })
        .collect();
    if count > 0 && below(random, 4) == 0 {
        let at = below(random, table.len());
        table[at] ^= 1 << below(random, 8);
    }
    if below(random, 8) == 0 {
        table.truncate(below(random, table.len() + 1));
    }
    table
}

#[test]
fn any_table_is_answered() {
    let mut random = Random(5);
    let pool: Vec<u8> = (0..1155).map(|_| random.next() as u8).collect();
    let mut answers = [0; 14];
    for _ in 0..20_000 {
        let table = any_table(&mut random);
        let available = pool.len() - below(&mut random, 2) * below(&mut random, 300);
        let room = if below(&mut random, 4) == 0 {
            below(&mut random, 4200)
        } else {
            4200
        };
        let answer = check_write(&table, &pool[..available], room);
        answers[usize::from(answer.map_or_else(Refusal::number, |_| 0))] += 1;
    }
    for number in [0, 9, 10, 11] {
        assert!(answers[number] > 100, "answers: {answers:?}");
    }
}

/// Rows that did not come from the decoder: none panics, and none has data outside of the input.
#[test]
fn any_row_is_answered() {
    let input = [b'a'; 32];
    let mut random = Random(7);
    let mut inside = 0;
    for _ in 0..20_000 {
        let record = Record {
            length: below(&mut random, 40) as u32,
            place: below(&mut random, 40) as u32,
            kind: below(&mut random, 16) as u8,
            flags: random.next() as u8,
            bits: below(&mut random, 40) as u64,
            ..NAME
        };
        let row = record.to_bytes();
        let attribute = records(&row, &input).next().unwrap();
        let end = record.place as usize + (record.length as usize).max(2) - 2;
        let fits = record.length >= 2 && end <= input.len();
        assert_eq!(attribute.data().is_some(), fits);
        inside += usize::from(fits);
        if let Value::Unhandled { valid_up_to } = attribute.value() {
            let size = attribute.data().map_or(0, <[u8]>::len);
            assert!(valid_up_to == 0 || valid_up_to < size, "{record:?}");
        }
    }
    assert!((1_000..19_000).contains(&inside), "{inside} fit");
}
