//! Tables that are moved: by a second writing of the rules, and as the tables of two messages that are joined.

mod frames;
mod parents;
mod random;

use frames::{be_u32, frames, Frame, LENT};
use parents::check_parents;
use random::Random;
use tandrekily::{decode, decode_by, header, radius, shift};
use tandrekily::{Header, Limits, Message, Reading, Record, Records, Refusal};

type Row = [u8; Record::SIZE];

const MOST: usize = u32::MAX as usize;

/// A row in which every other byte is something too, byte 23 among them.
fn row(place: u32, depth: u8, parent: u32) -> Row {
    let mut row = [0x77; Record::SIZE];
    row[12..16].copy_from_slice(&place.to_be_bytes());
    row[16] = depth;
    row[32..36].copy_from_slice(&parent.to_be_bytes());
    row
}

/// The table afterwards. Where it is refused, it must be as it was lent.
fn moved(table: &[u8], bytes: usize, records: usize) -> Result<Vec<u8>, Refusal> {
    let mut lent = table.to_vec();
    let answer = shift(&mut lent, bytes, records);
    if answer.is_err() {
        assert_eq!(lent, table);
    }
    assert_eq!(answer?, table.len() / Record::SIZE);
    Ok(lent)
}

// ---- the rules

#[test]
fn an_empty_table() {
    for number in [0, 1, MOST, MOST + 1, usize::MAX] {
        assert_eq!(moved(&[], number, number), Ok(vec![]));
    }
}

#[test]
fn a_place_keeps_to_32_bits() {
    let to = |place, bytes| moved(&row(place, 1, 5), bytes, 1);
    assert_eq!(to(28, 36), Ok(row(64, 1, 5).to_vec()));
    assert_eq!(to(0, MOST), Ok(row(u32::MAX, 1, 5).to_vec()));
    assert_eq!(to(u32::MAX - 1, 1), Ok(row(u32::MAX, 1, 5).to_vec()));
    assert_eq!(to(u32::MAX, 0), Ok(row(u32::MAX, 1, 5).to_vec()));
    let past = [(0, MOST + 1), (1, MOST), (1, usize::MAX), (u32::MAX - 1, 2)];
    let wraps = usize::MAX - MOST + 1;
    for (place, bytes) in past.into_iter().chain([(u32::MAX, 1), (u32::MAX, wraps)]) {
        assert_eq!(to(place, bytes), Err(Refusal::TooLong), "{place}, {bytes}");
    }
}

/// At any depth but 1, where the parent is an index.
#[test]
fn a_parent_keeps_to_32_bits() {
    for depth in (0..=u8::MAX).filter(|&depth| depth != 1) {
        let to = |parent, records| moved(&row(28, depth, parent), 0, records);
        assert_eq!(to(28, 36), Ok(row(28, depth, 64).to_vec()));
        assert_eq!(to(0, MOST), Ok(row(28, depth, u32::MAX).to_vec()));
        assert_eq!(to(u32::MAX - 1, 1), Ok(row(28, depth, u32::MAX).to_vec()));
        assert_eq!(to(u32::MAX, 0), Ok(row(28, depth, u32::MAX).to_vec()));
        let past = [(0, MOST + 1), (1, MOST), (1, usize::MAX), (u32::MAX - 1, 2)];
        let wraps = usize::MAX - MOST + 1;
        for (parent, records) in past.into_iter().chain([(u32::MAX, 1), (u32::MAX, wraps)]) {
            assert_eq!(
                to(parent, records),
                Err(Refusal::TooLong),
                "{parent}, {records}"
            );
        }
    }
}

/// The mark is told by the depth, whatever number stands there.
#[test]
fn a_parent_stays_at_depth_1() {
    for parent in [0, 1, 5, u32::MAX - 1, u32::MAX] {
        for records in [0, 1, 2, MOST, usize::MAX] {
            let stays = row(30, 1, parent).to_vec();
            assert_eq!(moved(&row(28, 1, parent), 2, records), Ok(stays));
        }
    }
}

/// Wherever it stands, one record that is too far keeps all others where they were.
#[test]
fn all_records_or_none() {
    let good = [row(28, 1, u32::MAX), row(36, 2, 0), row(44, 3, 1)];
    let after = [row(30, 1, u32::MAX), row(38, 2, 3), row(46, 3, 4)];
    assert_eq!(moved(&good.concat(), 2, 3), Ok(after.concat()));
    for bad in [row(u32::MAX - 1, 1, u32::MAX), row(28, 2, u32::MAX - 2)] {
        for index in 0..good.len() {
            let mut rows = good;
            rows[index] = bad;
            assert_eq!(moved(&rows.concat(), 2, 3), Err(Refusal::TooLong));
        }
    }
}

/// It is said first, with how many records there are.
#[test]
fn bytes_left_over() {
    for records in 0..4 {
        for left_over in 1..Record::SIZE {
            let mut table = row(u32::MAX, 2, u32::MAX).repeat(records);
            table.resize(table.len() + left_over, LENT);
            for number in [0, 1, usize::MAX] {
                let answer = moved(&table, number, number);
                assert_eq!(answer, Err(Refusal::BadTable(records)));
            }
        }
    }
}

/// The rules once more: the number moved, if it fits.
fn moved_number(bytes: &mut [u8], by: usize) -> Option<()> {
    let sum = u64::from(be_u32(bytes)).checked_add(by as u64)?;
    let number = u32::try_from(sum).ok()?;
    bytes.copy_from_slice(&number.to_be_bytes());
    Some(())
}

fn moved_again(table: &[u8], bytes: usize, records: usize) -> Result<Vec<u8>, Refusal> {
    let mut table = table.to_vec();
    let count = table.len() / Record::SIZE;
    if table.len() > count * Record::SIZE {
        return Err(Refusal::BadTable(count));
    }
    for row in table.chunks_mut(Record::SIZE) {
        moved_number(&mut row[12..16], bytes).ok_or(Refusal::TooLong)?;
        if row[16] != 1 {
            moved_number(&mut row[32..36], records).ok_or(Refusal::TooLong)?;
        }
    }
    Ok(table)
}

/// A number of four bytes: small, near the last, or any.
fn any_number(random: &mut Random) -> u32 {
    let number = random.next() as u32;
    match random.next() % 8 {
        0 => u32::MAX - number % 4,
        1 => number,
        _ => number % 1000,
    }
}

/// By what a table is moved: as much, more than four bytes hold, or any number.
fn any_move(random: &mut Random) -> usize {
    match random.next() % 32 {
        0 => MOST + 1,
        1 => random.next() as usize,
        2..6 => any_number(random) as usize,
        _ => random.next() as usize % 1000,
    }
}

fn any_row(random: &mut Random) -> Row {
    let depth = random.next() as u8;
    let depth = if depth < 250 { depth % 4 } else { depth };
    let mut row = row(any_number(random), depth, any_number(random));
    row[17..25].copy_from_slice(&random.next().to_be_bytes());
    row
}

#[test]
fn any_table_is_moved_by_the_rules() {
    let mut random = Random(10);
    let (mut accepted, mut too_long) = (0, 0);
    for _ in 0..20_000 {
        let count = random.next() as usize % 5;
        let mut table: Vec<u8> = (0..count).flat_map(|_| any_row(&mut random)).collect();
        if random.next() % 8 == 0 {
            table.extend(vec![LENT; random.next() as usize % Record::SIZE]);
        }
        let (bytes, records) = (any_move(&mut random), any_move(&mut random));
        let answer = moved(&table, bytes, records);
        assert_eq!(
            answer,
            moved_again(&table, bytes, records),
            "{table:x?}, {bytes}, {records}"
        );
        accepted += usize::from(answer.is_ok() && count > 0);
        too_long += usize::from(answer == Err(Refusal::TooLong));
    }
    assert!(
        accepted > 3_000 && too_long > 3_000,
        "{accepted}, {too_long}"
    );
}

// ---- joining

/// How a message is read.
#[derive(Clone, Copy, Debug, PartialEq)]
enum Way {
    Reading(Reading),
    Edition(u32),
}

const WAYS: [Way; 4] = [
    Way::Reading(Reading::Sawp),
    Way::Reading(Reading::Rfc),
    Way::Edition(4006),
    Way::Edition(8506),
];

fn read<'a>(way: Way, input: &'a [u8], store: &'a mut [u8]) -> Result<Message<'a>, Refusal> {
    match way {
        Way::Reading(reading) => decode(input, reading, Limits::default(), store),
        Way::Edition(number) => decode_by(input, number, Limits::default(), store),
    }
}

/// What a message says of its AVPs.
#[derive(Clone, Debug, PartialEq)]
struct Fragment {
    table: Vec<u8>,
    length: usize,
    tried: usize,
    errors: u8,
}

/// The flags of all AVPs.
fn errors_of(records: Records) -> u8 {
    records.fold(0, |errors, avp| errors | avp.record.errors)
}

impl Fragment {
    /// The flags of a message are those of its AVPs and of its own header.
    fn of(way: Way, input: &[u8]) -> Fragment {
        let mut store = vec![LENT; input.len() / 8 * Record::SIZE];
        let m = read(way, input, &mut store).unwrap();
        let errors = errors_of(m.records());
        assert_eq!(
            Ok((m.header, m.errors)),
            header(input).map(|(h, own)| (h, own | errors))
        );
        check_parents(m.records());
        Fragment {
            table: m.table().to_vec(),
            length: m.length - Header::SIZE,
            tried: m.tried,
            errors,
        }
    }

    fn records(&self) -> usize {
        self.table.len() / Record::SIZE
    }

    /// This one, and the other behind it.
    fn join(mut self, other: &Fragment) -> Fragment {
        let table = moved(&other.table, self.length, self.records()).unwrap();
        self.table.extend(table);
        self.length += other.length;
        self.tried += other.tried;
        self.errors |= other.errors;
        self
    }
}

/// The first's header with the new length, and the AVPs of both.
fn joined(first: &[u8], second: &[u8]) -> Vec<u8> {
    let mut message = [first, &second[Header::SIZE..]].concat();
    let length = (message.len() as u32).to_be_bytes();
    message[1..4].copy_from_slice(&length[1..]);
    message
}

/// Asserts that it is the same to join before decoding and after it.
fn check_joined(way: Way, first: &[u8], second: &[u8]) {
    let whole = Fragment::of(way, &joined(first, second));
    let tables = Fragment::of(way, first).join(&Fragment::of(way, second));
    assert_eq!(tables, whole, "{way:?}, {first:x?}, {second:x?}");
}

/// Failed-AVP, Proxy-Info and Experimental-Result; of credit-control Multiple-Services-Credit-Control,
/// Granted-Service-Unit and Unit-Value.
const GROUPS: [u32; 6] = [279, 284, 297, 456, 431, 445];

/// User-Name, Class, Acct-Session-Id, Host-IP-Address, Result-Code, Exponent, Value-Digits, and a code that is none.
const OTHERS: [u32; 8] = [1, 25, 44, 257, 268, 429, 447, 0xFF_FFFF];

fn any_of<const N: usize>(random: &mut Random, codes: [u32; N]) -> u32 {
    codes[random.next() as usize % N]
}

/// A group's code and its members, or another's and any bytes. One group of four is cut, so that its members mostly
/// don't tile.
fn any_code_and_data(random: &mut Random, levels: usize) -> (u32, Vec<u8>) {
    if levels == 0 || random.next() % 2 == 0 {
        let size = random.next() as usize % 9;
        let data = random.next().to_be_bytes()[..size].to_vec();
        return (any_of(random, OTHERS), data);
    }
    let mut members = any_run(random, levels - 1);
    if random.next() % 4 == 0 {
        members.truncate(random.next() as usize % (members.len() + 1));
    }
    (any_of(random, GROUPS), members)
}

/// Now and then with any flags, reserved ones among them, or with any padding.
fn any_avp(random: &mut Random, levels: usize) -> Vec<u8> {
    let (code, data) = any_code_and_data(random, levels);
    let flags = if random.next() % 8 == 0 {
        random.next() as u8
    } else {
        0x40
    };
    let vendor: &[u8] = if flags & Record::VENDOR_SPECIFIC_FLAG != 0 {
        &[0, 0, 40, 175]
    } else {
        &[]
    };
    let length = (8 + vendor.len() + data.len()) as u32;
    let head = length | u32::from(flags) << 24;
    let mut avp = [&code.to_be_bytes(), &head.to_be_bytes(), vendor, &data].concat();
    let pad = if random.next() % 8 == 0 { LENT } else { 0 };
    avp.resize(avp.len().next_multiple_of(4), pad);
    avp
}

fn any_run(random: &mut Random, levels: usize) -> Vec<u8> {
    let count = random.next() % 4;
    (0..count).flat_map(|_| any_avp(random, levels)).collect()
}

/// Any header, which has reserved bits too, and up to three AVPs of up to five levels.
fn any_message(random: &mut Random) -> Vec<u8> {
    let mut message = vec![1, 0, 0, 0];
    message.extend(random.next().to_be_bytes());
    message.extend(random.next().to_be_bytes());
    joined(
        &message,
        &[&[0; Header::SIZE][..], &any_run(random, 4)].concat(),
    )
}

/// How many messages have no AVP, a group that doesn't tile, whose members were tried, and a record in the third level.
#[derive(Debug, Default)]
struct Seen {
    empty: usize,
    failing: usize,
    nested: usize,
}

impl Seen {
    fn count(&mut self, fragment: &Fragment) {
        let nested = fragment.table.chunks(Record::SIZE).any(|row| row[16] > 2);
        self.empty += usize::from(fragment.length == 0);
        self.failing += usize::from(fragment.tried > fragment.records());
        self.nested += usize::from(nested);
    }
}

#[test]
fn two_made_messages() {
    let mut random = Random(11);
    let mut seen = Seen::default();
    for _ in 0..4_000 {
        let (first, second) = (any_message(&mut random), any_message(&mut random));
        for way in WAYS {
            check_joined(way, &first, &second);
        }
        seen.count(&Fragment::of(WAYS[3], &second));
    }
    assert!(
        seen.empty > 500 && seen.failing > 500 && seen.nested > 500,
        "{seen:?}"
    );
}

/// One after another, or the last two before the first.
#[test]
fn three_made_messages() {
    let mut random = Random(12);
    for _ in 0..1_000 {
        let messages: [Vec<u8>; 3] = std::array::from_fn(|_| any_message(&mut random));
        for way in WAYS {
            let [first, second, third] = messages.each_ref().map(|m| Fragment::of(way, m));
            let whole = joined(&joined(&messages[0], &messages[1]), &messages[2]);
            let forward = first.clone().join(&second).join(&third);
            assert_eq!(forward, first.join(&second.join(&third)));
            assert_eq!(forward, Fragment::of(way, &whole));
        }
    }
}

/// The message of a case of the sample, and how it is read, if it is of a message that is accepted.
fn accepted(frame: &Frame) -> Option<(Way, &[u8])> {
    let (way, input) = match frame.function {
        0 => (Way::Reading(frame.reading), &frame.input[..]),
        6 => (Way::Edition(be_u32(&frame.input[..4])), &frame.input[4..]),
        _ => return None,
    };
    let mut store = frame.store();
    let length = match way {
        Way::Reading(reading) => {
            decode(input, reading, frame.limits, &mut store)
                .ok()?
                .length
        }
        Way::Edition(number) => {
            decode_by(input, number, frame.limits, &mut store)
                .ok()?
                .length
        }
    };
    Some((way, &input[..length]))
}

/// Each with the next one that is read in the same way.
#[test]
fn two_messages_of_the_sample() {
    let sample = frames();
    let messages: Vec<(Way, &[u8])> = sample.iter().filter_map(accepted).collect();
    let mut pairs = 0;
    for way in WAYS {
        let of_way: Vec<_> = messages.iter().filter(|(other, _)| *other == way).collect();
        for pair in of_way.windows(2) {
            check_joined(way, pair[0].1, pair[1].1);
            pairs += 1;
        }
    }
    assert!(pairs > 3_000, "only {pairs} pairs");
}

// ---- packets

/// A packet of up to four attributes of any type, with data of up to 8 bytes.
fn any_packet(random: &mut Random) -> Vec<u8> {
    let mut packet = vec![4, 7, 0, 0];
    packet.extend([LENT; 16]);
    for _ in 0..random.next() % 5 {
        let size = random.next() as usize % 9;
        packet.extend([random.next() as u8 % 64, 2 + size as u8]);
        packet.extend(&random.next().to_be_bytes()[..size]);
    }
    packet[3] = packet.len() as u8;
    packet
}

fn table_of(packet: &[u8]) -> (Vec<u8>, u8) {
    let mut store = [LENT; 8 * Record::SIZE];
    let decoded = radius::decode(packet, &mut store).unwrap();
    (decoded.table().to_vec(), decoded.errors)
}

/// A packet has no flags of its own.
#[test]
fn two_made_packets() {
    let mut random = Random(13);
    for _ in 0..4_000 {
        let (first, second) = (any_packet(&mut random), any_packet(&mut random));
        let mut whole = [&first, &second[radius::Header::SIZE..]].concat();
        whole[3] = whole.len() as u8;
        let ((mut table, errors), (behind, others)) = (table_of(&first), table_of(&second));
        let (bytes, records) = (
            first.len() - radius::Header::SIZE,
            table.len() / Record::SIZE,
        );
        table.extend(moved(&behind, bytes, records).unwrap());
        assert_eq!((table, errors | others), table_of(&whole));
    }
}
