//! Tables that did not come from the decoder: any bytes are answered, and nothing panics.

mod random;

use std::iter::successors;

use random::Random;
use tandrekily::{kinds, Avp, Reading, Record, Records, Value};

/// Rows of any bytes: half of them with lengths, places and bits that are near the input, and parents near the table's front, which
/// else would be met too seldom.
fn any_row(random: &mut Random) -> [u8; Record::SIZE] {
    let mut row = [0; Record::SIZE];
    for chunk in row.chunks_mut(4) {
        chunk.copy_from_slice(&random.next().to_be_bytes()[..4]);
    }
    row[17] %= 16;
    if random.next() % 2 == 0 {
        let (length, place, bits) = (row[7] % 40, row[15] % 40, row[31] % 40);
        row[5..8].copy_from_slice(&[0, 0, length]);
        row[12..16].copy_from_slice(&[0, 0, 0, place]);
        row[24..32].copy_from_slice(&u64::from(bits).to_be_bytes());
        row[32..35].fill(0);
    }
    row
}

#[test]
fn any_table_is_answered() {
    let input = [b'a'; 32];
    let mut random = Random(0x9E37_79B9_7F4A_7C15);
    let table: Vec<u8> = (0..20_000).flat_map(|_| any_row(&mut random)).collect();
    for reading in [Reading::Sawp, Reading::Rfc] {
        let records = Records::new(&table, reading, &input);
        let (inside, outside): (Vec<_>, Vec<_>) = records.partition(|avp| avp.data().is_some());
        assert!(!inside.is_empty() && !outside.is_empty());
        let text = |avp: &Avp| matches!(avp.value(), Value::Utf8String(_) | Value::OctetString(_));
        assert!(inside.iter().any(text));
        assert!(!outside.iter().any(text));
    }
}

/// Where an AVP's text broke, and 0 where it didn't.
fn broken_at(avp: &Avp) -> usize {
    match avp.value() {
        Value::Unhandled { valid_up_to } => valid_up_to,
        _ => 0,
    }
}

#[test]
fn no_text_breaks_outside_its_data() {
    let mut random = Random(6);
    let table: Vec<u8> = (0..20_000).flat_map(|_| any_row(&mut random)).collect();
    let mut records = Records::new(&table, Reading::Rfc, &[b'a'; 32]);
    for avp in records.clone() {
        let size = avp.data().map_or(0, <[u8]>::len);
        let place = broken_at(&avp);
        assert!(place == 0 || place < size, "{:?}", avp.record);
    }
    assert!(records.any(|avp| broken_at(&avp) > 0));
}

/// Any other number is taken for none, so a walk up ends.
#[test]
fn a_parent_is_an_earlier_row() {
    let mut random = Random(8);
    let table: Vec<u8> = (0..20_000).flat_map(|_| any_row(&mut random)).collect();
    let records = Records::new(&table, Reading::Rfc, &[]);
    let rows: Vec<Record> = records.clone().map(|avp| avp.record).collect();
    let mut groups = 0;
    for (index, avp) in records.enumerate() {
        let parent = avp.record.parent.map(|parent| parent as usize);
        let group = parent.and_then(|parent| rows[..index].get(parent));
        assert_eq!(avp.parent().map(|avp| avp.record), group.copied());
        let path = successors(Some(avp), Avp::parent).take(index + 2);
        assert!(path.count() <= index + 1, "{:?}", avp.record);
        groups += usize::from(group.is_some());
    }
    assert!((1_000..19_000).contains(&groups), "{groups} have a parent");
}

/// Byte 23 is always 0 and has no field.
#[test]
fn a_row_is_its_record() {
    let mut random = Random(3);
    for _ in 0..1_000 {
        let mut row = any_row(&mut random);
        row[23] = 0;
        assert_eq!(Record::from_bytes(&row).to_bytes(), row);
    }
}

/// A record at the ends of the numbers, where a sum would wrap.
#[test]
fn the_last_place_and_length() {
    let record = Record {
        length: 0xFF_FFFF,
        place: u32::MAX,
        kind: kinds::OCTET_STRING,
        ..Record::default()
    };
    assert_eq!(record.data(&[0; 8]), None);
    assert_eq!(
        Value::new(&record, Reading::Sawp, &[0; 8]),
        Value::Unhandled { valid_up_to: 0 }
    );
}

/// The code of an AVP and of its group.
fn codes(avp: Avp) -> (u32, Option<u32>) {
    let group = avp.parent().map(|group| group.record.code);
    (avp.record.code, group)
}

/// The parent of each row is the first, and so none for that one.
#[test]
fn an_iterator_from_both_ends() {
    let row = |code| {
        Record {
            code,
            parent: Some(0),
            ..Record::default()
        }
        .to_bytes()
    };
    let mut table = [row(1), row(2), row(3)].concat();
    table.extend([0; Record::SIZE - 1]);
    let all = Records::new(&table, Reading::Sawp, &[]);
    let mut records = all.clone();
    assert_eq!(records.len(), 3);
    assert_eq!(records.next_back().map(codes), Some((3, Some(1))));
    assert_eq!(records.next().map(codes), Some((1, None)));
    assert_eq!(records.as_bytes(), row(2));
    assert_eq!(records.next().map(codes), Some((2, Some(1))));
    assert!(records.next().is_none() && records.next_back().is_none());
    assert_eq!(records.len(), 0);
    let back = [(3, Some(1)), (2, Some(1)), (1, None)];
    assert!(all.rev().map(codes).eq(back));
}
