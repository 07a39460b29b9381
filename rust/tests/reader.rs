//! Finding an AVP and going over the top level: what is easy to get wrong, and the sample's records as the measure.

/// Only the bytes of the cases are taken: limits and room are not for a reader.
#[allow(dead_code)]
mod frames;

use std::collections::BTreeSet;

use frames::{be_u32, frames};
use tandrekily::{decode, find, header, Header, Limits, Outline, Reader, Reading, Record, Refusal};

const SESSION_ID: u32 = 263;
const ORIGIN_HOST: u32 = 264;
const RESULT_CODE: u32 = 268;
const FAILED_AVP: u32 = 279;

/// An AVP with this code and these data, padded with zeros.
fn avp(code: u32, data: &[u8]) -> Vec<u8> {
    let mut avp = code.to_be_bytes().to_vec();
    avp.extend((data.len() as u32 + 8).to_be_bytes());
    avp.extend(data);
    avp.resize(avp.len().next_multiple_of(4), 0);
    avp
}

/// A message with these AVPs, or parts of them.
fn message(avps: &[&[u8]]) -> Vec<u8> {
    let mut message = vec![0; Header::SIZE];
    message.extend(avps.concat());
    let length = message.len() as u32;
    message[..4].copy_from_slice(&length.to_be_bytes());
    message[0] = 1;
    message
}

fn session_id() -> Vec<u8> {
    avp(SESSION_ID, b"a;1;2")
}

/// What is found of a Session-Id, by a reader too.
fn found(input: &[u8]) -> Result<Option<Outline>, Refusal> {
    let found = find(input, SESSION_ID);
    let by_reader = Reader::new(input).and_then(|mut reader| reader.find(SESSION_ID));
    assert_eq!(found, by_reader);
    found
}

/// All that a reader gives, but no more than the bytes of a message, which no reader should come near.
fn given(input: &[u8]) -> Vec<Result<Outline, Refusal>> {
    let reader = Reader::new(input).unwrap();
    reader.take(input.len()).collect()
}

/// The data of the Session-Id that must be there.
fn data(input: &[u8]) -> &[u8] {
    let outline = found(input).expect("accepted").expect("found");
    outline.data(input).expect("inside the input")
}

#[test]
fn every_field_of_an_outline() {
    let m = message(&[&avp(RESULT_CODE, &[0; 4]), &session_id()]);
    let outline = Outline {
        code: SESSION_ID,
        flags: 0,
        length: 13,
        vendor_id: 0,
        place: 40,
        padding: 3,
        pads: [0; 3],
    };
    assert_eq!(found(&m), Ok(Some(outline)));
    assert_eq!(data(&m), b"a;1;2");
}

#[test]
fn inside_a_group_only_it_is_none() {
    let group = avp(FAILED_AVP, &session_id());
    let code = avp(RESULT_CODE, &[0; 4]);
    assert_eq!(found(&message(&[&group, &code])), Ok(None));
    let behind = avp(SESSION_ID, b"behind");
    assert_eq!(data(&message(&[&group, &behind])), b"behind");
}

/// Its header, its data or its padding is cut off, or its length is too short for its header.
#[test]
fn at_the_failing_place_it_is_not_tiled() {
    let host = avp(ORIGIN_HOST, b"host");
    for kept in 1..session_id().len() {
        let cut = message(&[&host, &session_id()[..kept]]);
        assert_eq!(found(&cut), Err(Refusal::NotTiled), "{kept} bytes");
    }
    for head in [b"\0\0\x01\x07\0\0\0\x07", b"\0\0\x01\x07\x80\0\0\x08"] {
        assert_eq!(found(&message(&[&host, head])), Err(Refusal::NotTiled));
    }
}

#[test]
fn before_the_failing_place_it_is_found() {
    let host = avp(ORIGIN_HOST, b"host");
    for kept in 1..host.len() {
        let m = message(&[&session_id(), &host[..kept]]);
        assert_eq!(data(&m), b"a;1;2");
        assert_eq!(find(&m, RESULT_CODE), Err(Refusal::NotTiled));
    }
}

#[test]
fn in_a_message_not_all_there_it_is_incomplete() {
    let m = message(&[&session_id(), &avp(RESULT_CODE, &[0; 4])]);
    for absent in 1..=12 {
        let there = &m[..m.len() - absent];
        assert_eq!(found(there), Err(Refusal::Incomplete(absent)));
    }
}

#[test]
fn in_an_empty_message_there_is_none() {
    let empty = message(&[]);
    assert_eq!(found(&empty), Ok(None));
    let mut reader = Reader::new(&empty).unwrap();
    assert_eq!(reader.next(), None);
    assert_eq!(reader.place(), Header::SIZE);
}

#[test]
fn past_the_message_nothing_is_looked_at() {
    let mut input = message(&[&avp(ORIGIN_HOST, b"host")]);
    input.extend(session_id());
    assert_eq!(found(&input), Ok(None));
    assert_eq!(given(&input).len(), 1);
    input.push(0xFF);
    assert_eq!(found(&input), Ok(None));
}

#[test]
fn a_vendor_does_not_hide_it() {
    for (flags, vendor_id) in [(0xC0, 10_415_u32), (0x80, 0), (0xFF, u32::MAX)] {
        let mut avp = SESSION_ID.to_be_bytes().to_vec();
        avp.extend([flags, 0, 0, 13]);
        avp.extend(vendor_id.to_be_bytes());
        avp.extend(b"x\0\0\0");
        let m = message(&[&avp, &session_id()]);
        let outline = found(&m).unwrap().unwrap();
        assert_eq!((outline.flags, outline.vendor_id), (flags, vendor_id));
        assert!(outline.is_vendor_specific());
        assert_eq!((outline.header_size(), outline.place), (12, 32));
        assert_eq!(outline.data(&m), Some(&b"x"[..]));
    }
}

#[test]
fn padding_is_given_as_it_stands() {
    let pads = [0xA1, 0xA2, 0xA3];
    for count in 0..=3 {
        let mut avp = avp(SESSION_ID, &b"data"[..4 - count]);
        avp[12 - count..].copy_from_slice(&pads[..count]);
        let outline = found(&message(&[&avp])).unwrap().unwrap();
        let mut expected = [0; 3];
        expected[..count].copy_from_slice(&pads[..count]);
        assert_eq!((outline.padding, outline.pads), (count as u8, expected));
    }
}

#[test]
fn of_two_the_first_is_found() {
    let other = avp(SESSION_ID, b"other");
    assert_eq!(data(&message(&[&session_id(), &other])), b"a;1;2");
    assert_eq!(data(&message(&[&other, &session_id()])), b"other");
}

/// Every byte of a code counts.
#[test]
fn codes_at_the_ends() {
    let codes = [0, u32::MAX, 0x0100_0107, 0x0001_0107, SESSION_ID];
    let avps: Vec<Vec<u8>> = codes.iter().map(|&code| avp(code, b"")).collect();
    let m = message(&avps.iter().map(Vec::as_slice).collect::<Vec<_>>());
    for (index, code) in codes.into_iter().enumerate() {
        let outline = find(&m, code).unwrap().unwrap();
        assert_eq!((outline.code, outline.place), (code, 28 + 8 * index));
    }
}

#[test]
fn a_reader_stays_where_nothing_is_found() {
    let m = message(&[
        &session_id(),
        &avp(ORIGIN_HOST, b"host"),
        &avp(SESSION_ID, b"second"),
        &avp(RESULT_CODE, &[0; 4]),
    ]);
    let mut reader = Reader::new(&m).unwrap();
    let mut stands = |code, place: Option<usize>, after| {
        let found = reader.find(code).unwrap().map(|outline| outline.place);
        assert_eq!((found, reader.place()), (place, after), "code {code}");
    };
    stands(FAILED_AVP, None, 20);
    stands(SESSION_ID, Some(28), 36);
    stands(FAILED_AVP, None, 36);
    stands(SESSION_ID, Some(56), 64);
    stands(SESSION_ID, None, 64);
    stands(ORIGIN_HOST, None, 64);
    stands(RESULT_CODE, Some(72), 76);
    stands(RESULT_CODE, None, 76);
}

#[test]
fn a_reader_stays_where_the_avps_break_off() {
    let m = message(&[&session_id(), &avp(ORIGIN_HOST, b"host"), &[0]]);
    let mut reader = Reader::new(&m).unwrap();
    assert_eq!(reader.find(RESULT_CODE), Err(Refusal::NotTiled));
    assert_eq!(reader.place(), 20);
    assert_eq!(reader.find(ORIGIN_HOST).unwrap().unwrap().place, 44);
    assert_eq!(reader.find(SESSION_ID), Err(Refusal::NotTiled));
    assert_eq!(reader.place(), 48);
    assert_eq!(reader.next(), Some(Err(Refusal::NotTiled)));
}

/// A search goes on where the iterator stands, and the other way round.
#[test]
fn a_search_and_steps_in_turn() {
    let m = message(&[&session_id(), &session_id(), &avp(ORIGIN_HOST, b"host")]);
    let mut reader = Reader::new(&m).unwrap();
    assert_eq!(reader.next().unwrap().unwrap().place, 28);
    assert_eq!(reader.find(SESSION_ID).unwrap().unwrap().place, 44);
    assert_eq!(reader.next().unwrap().unwrap().code, ORIGIN_HOST);
    assert_eq!((reader.next(), reader.place()), (None, m.len()));
}

#[test]
fn an_iterator_breaks_off_once() {
    let m = message(&[&session_id(), &[0; 7]]);
    let mut reader = Reader::new(&m).unwrap();
    assert!(matches!(reader.next(), Some(Ok(_))));
    assert_eq!(reader.next(), Some(Err(Refusal::NotTiled)));
    for _ in 0..3 {
        assert_eq!((reader.next(), reader.place()), (None, 36));
    }
    assert_eq!(reader.clone().next(), None);
    assert_eq!(reader.find(SESSION_ID), Err(Refusal::NotTiled));
    assert_eq!(reader.next(), None);
}

/// The AVPs that fit, and an error unless the last of them ends where the message does.
#[test]
fn a_message_cut_anywhere() {
    let avps = [session_id(), avp(RESULT_CODE, &[0; 4]), avp(1, b"bob")];
    let run = avps.concat();
    for kept in 0..=run.len() {
        let m = message(&[&run[..kept]]);
        let fit = [16, 28, 40].iter().filter(|&&end| end <= kept).count();
        let (avps, errors): (Vec<_>, Vec<_>) = given(&m).into_iter().partition(Result::is_ok);
        assert_eq!(avps.len(), fit, "{kept} bytes");
        let broken = usize::from(![0, 16, 28, 40].contains(&kept));
        assert_eq!(errors, vec![Err(Refusal::NotTiled); broken]);
    }
}

#[test]
fn what_the_header_refuses_is_refused() {
    let mut refused = 0;
    for frame in frames() {
        let Err(refusal) = header(&frame.input) else {
            continue;
        };
        assert_eq!(found(&frame.input), Err(refusal));
        assert_eq!(Reader::new(&frame.input).err(), Some(refusal));
        refused += 1;
    }
    assert!(refused > 2000, "only {refused} headers are refused");
}

/// An outline of one's own: at the ends of the numbers, where a sum would wrap, and shorter than its header.
#[test]
fn an_outline_that_does_not_fit_has_no_data() {
    let input = [b'a'; 32];
    let of = |place, flags, length| Outline {
        place,
        flags,
        length,
        ..Outline::default()
    };
    assert_eq!(of(31, 0, 9).data(&input), Some(&b"a"[..]));
    assert_eq!(of(32, 0x80, 12).data(&input), Some(&b""[..]));
    let outside = [(31, 0, 10), (33, 0, 8), (0, 0, 7), (0, 0x80, 11)];
    let far = [(usize::MAX, 0, 0xFF_FFFF), (1 << 32, 0, 9)];
    for (place, flags, length) in outside.into_iter().chain(far) {
        assert_eq!(of(place, flags, length).data(&input), None);
    }
}

#[test]
fn the_20_bytes_of_an_outline() {
    let outline = Outline {
        code: 0x0102_0304,
        flags: 5,
        length: 0x06_0708,
        vendor_id: 0x090A_0B0C,
        place: 0x0D0E_0F10,
        padding: 17,
        pads: [18, 19, 20],
    };
    let counted: Vec<u8> = (1..=20).collect();
    assert_eq!(outline.to_bytes(), *counted);
}

/// What an outline has of each record of the top level.
fn tops(table: &[u8]) -> Vec<Vec<u8>> {
    let rows = table.chunks(Record::SIZE);
    rows.filter(|row| row[16] == 1)
        .map(|row| [&row[..16], &row[19..23]].concat())
        .collect()
}

/// Those of an accepted message with a code, by `find` and by a reader that goes from one to the next.
fn check_code(input: &[u8], tops: &[Vec<u8>], code: u32) {
    let with_it = tops.iter().filter(|top| be_u32(&top[..4]) == code);
    let expected: Vec<&[u8]> = with_it.map(Vec::as_slice).collect();
    let first = find(input, code).unwrap().map(|o| o.to_bytes());
    assert_eq!(first.as_ref().map(|o| &o[..]), expected.first().copied());
    let mut reader = Reader::new(input).unwrap();
    for top in expected {
        assert_eq!(reader.find(code).unwrap().unwrap().to_bytes(), *top);
    }
    assert_eq!(reader.find(code), Ok(None));
}

/// Is the message accepted, and if so, do the outlines stand in its records? No message has more AVPs than bytes by eight.
fn outlines_are_in_the_records(input: &[u8], reading: Reading) -> bool {
    let mut store = vec![0; input.len() / 8 * Record::SIZE];
    let Ok(m) = decode(input, reading, Limits::default(), &mut store) else {
        return false;
    };
    let outlines: Vec<Outline> = given(input).into_iter().map(Result::unwrap).collect();
    let bytes: Vec<_> = outlines.iter().map(|o| o.to_bytes().to_vec()).collect();
    let tops = tops(m.table());
    assert_eq!(bytes, tops);
    let data = m.records().filter(|avp| avp.record.depth == 1);
    assert!(data
        .map(|avp| avp.data())
        .eq(outlines.iter().map(|o| o.data(input))));
    let codes: BTreeSet<u32> = m.records().map(|avp| avp.record.code).collect();
    for code in codes {
        check_code(input, &tops, code);
    }
    true
}

#[test]
fn outlines_of_the_sample_are_in_its_records() {
    let sample = frames();
    for reading in [Reading::Sawp, Reading::Rfc] {
        let messages = sample.iter().filter(|frame| frame.function == 0);
        let accepted = messages
            .filter(|frame| outlines_are_in_the_records(&frame.input, reading))
            .count();
        assert!(accepted > 3000, "only {accepted} messages are accepted");
    }
}
