//! The cases, sort by sort. A seed, a sort and a number make a case again.

use crate::answer::{answer, read, Answer, AVP_ALONE, HEADER_ALONE, MESSAGE};
use crate::frame::{Frame, BYTES_MAX, CAPACITY_MAX, SAWP};
use crate::marked;
use crate::random::Random;
use crate::structured::{self, Shape, GROUPS, TEXTS};
use crate::text;
use crate::wire::{around, avp, avp_head, fix_length, message, number, padding, plain, HEADER, VENDOR};
use sawp_diameter::diameter::inside::{deepest_untiled, Refusal, DEPTH_MAX};
use std::path::Path;

/// A question with the answer that the Rust gives.
pub struct Case {
    pub sort: &'static str,
    pub number: u64,
    pub frame: Frame,
    pub answer: Answer,
}

/// The seed, how many of the random sorts, and the real messages by name.
pub struct Cases {
    seed: u64,
    scale: u64,
    real: Vec<Vec<u8>>,
    // the messages that are cut and altered, and where each one's first case stands if it has a case for each byte
    bases: Vec<Vec<u8>>,
    starts: Vec<u64>,
}

// A case before the Rust was asked: its limits may lean on what the Rust finds.
struct Draft {
    function: u8,
    bytes: Vec<u8>,
    limit: Limit,
    capacity: Capacity,
}

enum Limit {
    Is(u8),
    /// so much more than the deepest level at which a header is tried, and at least 1
    Deepest(i64),
}

enum Capacity {
    Is(u16),
    /// so much more than the records needed
    Needed(i64),
}

impl Draft {
    fn at_ease(function: u8, bytes: Vec<u8>) -> Draft {
        Draft {
            function,
            bytes,
            limit: Limit::Is(DEPTH_MAX as u8),
            capacity: Capacity::Needed(2),
        }
    }
}

pub const SORTS: [&str; 19] = [
    "marked",
    "bytes",
    "words",
    "words-tail",
    "words-avp",
    "lengths",
    "avp-lengths",
    "kinds",
    "flags",
    "deep",
    "text",
    "real",
    "cut",
    "byte",
    "tree",
    "mutated",
    "noise",
    "long",
    "large",
];

impl Cases {
    /// `real` is a folder of messages as `*.bin`, if there is one.
    pub fn new(seed: u64, scale: u64, real: Option<&Path>) -> Cases {
        let mut names: Vec<_> = real
            .map(|folder| std::fs::read_dir(folder).expect("the folder of real messages"))
            .into_iter()
            .flatten()
            .map(|entry| entry.expect("a name").path())
            .filter(|path| path.extension().is_some_and(|e| e == "bin"))
            .collect();
        names.sort();
        let real: Vec<Vec<u8>> = names
            .iter()
            .map(|path| std::fs::read(path).expect("a message"))
            .collect();

        let mut bases = real.clone();
        for number in 0..60 {
            bases.push(structured::some_message(&mut Random::new(seed, "base", number)));
        }
        let mut starts = vec![0];
        for base in &bases {
            starts.push(starts[starts.len() - 1] + base.len() as u64 + 1);
        }
        Cases {
            seed,
            scale,
            real,
            bases,
            starts,
        }
    }

    /// How many cases a sort has.
    pub fn count(&self, sort: &str) -> u64 {
        match sort {
            "marked" => marked::MARKED.len() as u64,
            "bytes" => 2 * strings(7, 5) + strings(3, 9),
            "words" => strings(WORDS.len() as u64, 5),
            "words-tail" => 3 * strings(WORDS.len() as u64, 4),
            "words-avp" => 4 * strings(WORDS.len() as u64, 4),
            "lengths" => 2 * 2 * 49 * LENGTHS,
            "avp-lengths" => 2 * 2 * 8 * 41 * LENGTHS,
            "kinds" => 2 * 21 * kind_codes().len() as u64,
            "flags" => 256 * (2 + 5 * 4 + 2 * 6),
            "deep" => 70 * 6 * 6 * 2 * 2,
            "text" => text::EDGES.div_ceil(text::TOGETHER) + 2_000 * self.scale,
            "real" => self.real.len() as u64 * REAL,
            "cut" => 3 * self.starts[self.bases.len()],
            "byte" => 4 * self.starts[self.bases.len()],
            "tree" => 150_000 * self.scale,
            "mutated" => 80_000 * self.scale,
            "noise" => 30_000 * self.scale,
            "long" => 200 * self.scale,
            "large" => LARGE,
            _ => panic!("no sort {sort}"),
        }
    }

    /// Makes a case. Needs the large stack, since it asks the Rust.
    pub fn case(&self, sort: &'static str, number: u64) -> Case {
        assert!(number < self.count(sort), "{sort} has fewer cases");
        let mut r = Random::new(self.seed, sort, number);
        let draft = self.draft(sort, number, &mut r);
        assert!(draft.bytes.len() <= BYTES_MAX);
        let found = read(draft.function, &draft.bytes);
        let (deepest, needed) = match &found {
            Ok(reading) if reading.deepest <= DEPTH_MAX => (reading.deepest, reading.records.len()),
            Ok(reading) => (reading.deepest, 2),
            Err(Refusal::NotTiled) => (deepest_untiled(&draft.bytes), 2),
            Err(_) => (1, 2),
        };
        let limit = match draft.limit {
            Limit::Is(n) => n,
            Limit::Deepest(more) => (deepest as i64 + more).clamp(1, 255) as u8,
        };
        let capacity = match draft.capacity {
            Capacity::Is(n) => n,
            Capacity::Needed(more) => (needed as i64 + more).clamp(0, CAPACITY_MAX as i64) as u16,
        };
        let answer = answer(draft.function, limit, capacity, &found);
        let frame = Frame {
            function: draft.function,
            reading: SAWP,
            limit,
            capacity,
            bytes: draft.bytes,
        };
        Case {
            sort,
            number,
            frame,
            answer,
        }
    }

    fn draft(&self, sort: &str, number: u64, r: &mut Random) -> Draft {
        let input = match sort {
            // these bring their own limits
            "marked" => return marked(number),
            "deep" => return deep(number),
            "text" => return texts(number, r),
            "real" => return self.real(number, r),
            "large" => return large(number, r),
            "bytes" => short_bytes(number),
            "words" => (MESSAGE, around(&words(number))),
            "words-tail" => (
                MESSAGE,
                around(&[&words(number / 3), &[0, 1, 0][..1 + number as usize % 3]].concat()),
            ),
            "words-avp" => (
                AVP_ALONE,
                [&words(number / 4), &[1, 0, 2][..number as usize % 4]].concat(),
            ),
            "lengths" => lengths(number),
            "avp-lengths" => avp_lengths(number, r),
            "kinds" => kinds(number, r),
            "flags" => flags(number, r),
            "cut" => self.cut(number),
            "byte" => self.byte(number, r),
            "tree" => tree(r),
            "mutated" => self.mutated(r),
            "noise" => noise(r),
            "long" => long(r),
            _ => panic!("no sort {sort}"),
        };
        limited(r, input)
    }

    fn real(&self, number: u64, r: &mut Random) -> Draft {
        let bytes = self.real[(number / REAL) as usize].clone();
        match number % REAL {
            n @ 0..=66 => Draft {
                limit: Limit::Is(n as u8),
                ..Draft::at_ease(MESSAGE, bytes)
            },
            n @ 67..=73 => Draft {
                capacity: Capacity::Needed(n as i64 - 70),
                ..Draft::at_ease(MESSAGE, bytes)
            },
            74 => Draft::at_ease(HEADER_ALONE, bytes),
            n => {
                // what stands at any word, taken for an AVP
                let at = (HEADER + 4 * (n as usize - 75)).min(bytes.len());
                limited(r, (AVP_ALONE, bytes[at..].to_vec()))
            }
        }
    }

    // The base of a number below the sum of all lengths, each one more, and the place in it.
    fn base(&self, number: u64) -> (Vec<u8>, usize) {
        let i = self.starts.partition_point(|&start| start <= number) - 1;
        (self.bases[i].clone(), (number - self.starts[i]) as usize)
    }

    // Every truncation: as it is, with the header's length made to fit, and of the first AVP alone.
    fn cut(&self, number: u64) -> (u8, Vec<u8>) {
        let (mut bytes, end) = self.base(number / 3);
        bytes.truncate(end);
        match number % 3 {
            0 => (MESSAGE, bytes),
            1 => {
                fix_length(&mut bytes);
                (MESSAGE, bytes)
            }
            _ => (AVP_ALONE, bytes.split_off(HEADER.min(end))),
        }
    }

    // One byte replaced, four times for each place.
    fn byte(&self, number: u64, r: &mut Random) -> (u8, Vec<u8>) {
        let (mut bytes, at) = self.base(number / 4);
        if let Some(byte) = bytes.get_mut(at) {
            *byte = match number % 4 {
                0 => *byte ^ 1 << r.below(8),
                1 => r.pick(&[0, 1, 4, 8, 12, 0x7F, 0x80, 0xFF]),
                2 => r.pick(&[
                    byte.wrapping_add(1),
                    byte.wrapping_sub(1),
                    byte.wrapping_add(4),
                    byte.wrapping_sub(4),
                ]),
                _ => r.byte(),
            };
        }
        (MESSAGE, bytes)
    }

    fn mutated(&self, r: &mut Random) -> (u8, Vec<u8>) {
        let mut bytes = if self.real.is_empty() || r.chance(40) {
            structured::some_message(r)
        } else {
            let which = r.below(self.real.len());
            self.real[which].clone()
        };
        for _ in 0..1 + r.below(4) {
            mutate(r, &mut bytes);
        }
        if r.chance(80) {
            fix_length(&mut bytes);
        }
        match r.below(10) {
            0 => (AVP_ALONE, bytes.split_off(HEADER.min(bytes.len()))),
            1 => (HEADER_ALONE, bytes),
            _ => (MESSAGE, bytes),
        }
    }
}

fn marked(number: u64) -> Draft {
    let m = &marked::MARKED[number as usize];
    Draft {
        function: m.function,
        bytes: m.bytes(),
        limit: Limit::Is(m.limit),
        capacity: Capacity::Is(m.capacity),
    }
}

// ---- limits

// A limit and a capacity, often at an edge.
fn limited(r: &mut Random, (function, bytes): (u8, Vec<u8>)) -> Draft {
    let limit = match r.below(20) {
        0..=9 => Limit::Is(DEPTH_MAX as u8),
        10..=12 => Limit::Deepest(0),
        13..=15 => Limit::Deepest(-1),
        16 => Limit::Deepest(1),
        17 => Limit::Is(r.pick(&[0, 65, 255])),
        _ => Limit::Is(1 + r.below(DEPTH_MAX) as u8),
    };
    let capacity = match r.below(20) {
        0..=8 => Capacity::Needed(0),
        9..=11 => Capacity::Needed(-1),
        12..=13 => Capacity::Needed(1),
        14 => Capacity::Is(0),
        15..=17 => Capacity::Needed(r.below(9) as i64),
        _ => Capacity::Is(r.below(65) as u16),
    };
    Draft {
        function,
        bytes,
        limit,
        capacity,
    }
}

// ---- short ones, all of them

// How many strings there are over so many letters, from the empty one to this length.
fn strings(letters: u64, most: u32) -> u64 {
    (0..=most).map(|n| letters.pow(n)).sum()
}

// The letters of the string of this number, shorter ones first.
fn string(letters: u64, mut number: u64) -> Vec<usize> {
    let mut n = 0;
    while number >= letters.pow(n) {
        number -= letters.pow(n);
        n += 1;
    }
    (0..n)
        .rev()
        .map(|i| (number / letters.pow(i) % letters) as usize)
        .collect()
}

fn short_bytes(number: u64) -> (u8, Vec<u8>) {
    let spell = |letters: &[u8], n| string(letters.len() as u64, n).iter().map(|&i| letters[i]).collect();
    let headers = strings(7, 5);
    if number < 2 * headers {
        let function = if number < headers { MESSAGE } else { HEADER_ALONE };
        return (
            function,
            spell(&[0x00, 0x01, 0x02, 0x03, 0x04, 0x14, 0xFF], number % headers),
        );
    }
    (AVP_ALONE, spell(&[0x00, 0x08, 0x80], number - 2 * headers))
}

// Codes, flags with lengths, and data; each may stand for any of them.
const WORDS: [u32; 12] = [
    0x0000_0117, // Failed-AVP, a group
    0x0000_010C, // Result-Code, a number
    0x0000_0000,
    0x0000_0008,
    0x0000_0009,
    0x0000_000C,
    0x0000_0010,
    0x0000_0014,
    0x8000_0008,
    0x8000_000C,
    0x4000_000D,
    0x1F00_0010,
];

fn words(number: u64) -> Vec<u8> {
    let spelt = string(WORDS.len() as u64, number);
    spelt.iter().flat_map(|&i| WORDS[i].to_be_bytes()).collect()
}

// ---- lengths

const LENGTHS: u64 = 60;

// Every length to 52, and some far larger.
fn a_length(i: u64) -> usize {
    match i {
        0..=52 => i as usize,
        _ => [100, 255, 256, 257, 65_535, 65_536, 0xFF_FFFF][i as usize - 53],
    }
}

// A header with any length, and any number of bytes.
fn lengths(number: u64) -> (u8, Vec<u8>) {
    let (number, function) = (number / 2, [MESSAGE, HEADER_ALONE][number as usize % 2]);
    let (number, item) = (
        number / 2,
        [plain(44, b""), plain(268, &[0; 4])][number as usize % 2].repeat(8),
    );
    let (available, length) = ((number / LENGTHS) as usize, a_length(number % LENGTHS));
    let mut bytes = around(&item);
    bytes[1..4].copy_from_slice(&(length as u32).to_be_bytes()[1..]);
    bytes.truncate(available);
    (function, bytes)
}

// An AVP with any length, and any number of bytes, alone or in a message that ends there.
fn avp_lengths(number: u64, r: &mut Random) -> (u8, Vec<u8>) {
    let (number, function) = (number / 2, [AVP_ALONE, MESSAGE][number as usize % 2]);
    let (number, flags) = (number / 2, [0x40, VENDOR][number as usize % 2]);
    let (number, code) = (number / 8, [0, 44, 268, 287, 257, 1, 279, 292][number as usize % 8]);
    let (available, length) = ((number / LENGTHS) as usize, a_length(number % LENGTHS));
    let mut bytes = avp_head(code, flags, length);
    let letters: &[u8] = r.pick(&[&[0], &[0, 0, 0, 8], &[0x41, 0xC3]]);
    bytes.extend((0..40).map(|_| r.pick(letters)));
    bytes.truncate(available);
    one_avp(function, bytes)
}

// ---- codes, kinds and flags

// All small codes, and the 49 with a higher bit set.
fn kind_codes() -> Vec<u32> {
    let mut codes: Vec<u32> = (0..768).collect();
    for code in structured::codes() {
        codes.extend([9, 16, 24, 31].map(|bit| code ^ 1 << bit));
    }
    codes.extend([u32::MAX, u32::MAX - 511, 1 << 31]);
    codes
}

// Any code with 0 to 20 bytes of data, with a vendor and without.
fn kinds(number: u64, r: &mut Random) -> (u8, Vec<u8>) {
    let (number, vendor) = (number / 2, number % 2 == 1);
    let (code, size) = (kind_codes()[number as usize / 21], number as usize % 21);
    let data = match r.below(3) {
        0 => r.bytes(size),
        1 => vec![r.byte() & 0x7F; size],
        _ => plain(44, b"").repeat(3)[..size].to_vec(),
    };
    let flags = if vendor { VENDOR | 0x40 } else { 0x40 };
    let bytes = avp(code, flags, r.pick(&[0, 10415]), &data);
    if r.chance(30) {
        (AVP_ALONE, bytes)
    } else {
        (MESSAGE, around(&[bytes, number_avp(r)].concat()))
    }
}

fn number_avp(r: &mut Random) -> Vec<u8> {
    number(r.pick(&structured::NUMBERS), r.word())
}

// Every flags byte of a header, every flags byte of an AVP, every byte of padding.
fn flags(case: u64, r: &mut Random) -> (u8, Vec<u8>) {
    let (byte, form) = (case as u8, case as usize / 256);
    if form < 2 {
        let bytes = message(byte, r.word() & 0xFF_FFFF, r.word(), r.word(), r.word(), &number_avp(r));
        return ([MESSAGE, HEADER_ALONE][form], bytes);
    }
    if form < 2 + 20 {
        let code = [44, 268, 279, 1, 999][(form - 2) / 4];
        let vendor = [0, 1, 10415, u32::MAX][form % 4];
        let bytes = avp(code, byte, vendor, &plain(44, b""));
        return one_avp(r.pick(&[MESSAGE, AVP_ALONE]), bytes);
    }
    // a place in the padding of 1, 2 or 3 bytes
    let (within, place) = ((form - 22) / 6, (form - 22) % 6);
    let (size, at) = [(1, 0), (1, 1), (1, 2), (2, 0), (2, 1), (3, 0)][place];
    let mut bytes = plain(44, &vec![0xEE; size]);
    let last = bytes.len() - padding(size);
    bytes[last + at] = byte;
    if within == 1 {
        bytes = plain(279, &[bytes, number_avp(r)].concat());
    }
    one_avp(r.pick(&[MESSAGE, AVP_ALONE]), bytes)
}

// An AVP, alone or as the only one of a message.
fn one_avp(function: u8, bytes: Vec<u8>) -> (u8, Vec<u8>) {
    match function {
        MESSAGE => (MESSAGE, around(&bytes)),
        _ => (AVP_ALONE, bytes),
    }
}

// ---- nesting

// `levels` groups, each in the one before; `leaf` is the payload of the last.
fn nested(levels: usize, leaf: Vec<u8>, beside: bool) -> Vec<u8> {
    let mut run = leaf;
    for level in (0..levels).rev() {
        let group = plain(GROUPS[level % GROUPS.len()], &run);
        run = if beside {
            [number(268, level as u32), group, plain(1, b"x")].concat()
        } else {
            group
        };
    }
    run
}

fn deep(number: u64) -> Draft {
    let (number, function) = (number / 2, [MESSAGE, AVP_ALONE][number as usize % 2]);
    let (number, beside) = (number / 2, number % 2 == 1);
    let (number, limit) = (number / 6, number % 6);
    let (levels, leaf) = (1 + number as usize / 6, number % 6);
    let leaf = match leaf {
        0 => Vec::new(),
        1 => vec![0],
        2 => plain(268, &[0, 0, 7, 0xD1]),
        3 => [plain(1, b"text"), vec![0, 0, 0]].concat(),
        4 => avp(1, 0x40, 0, b"\xFF\xFF"),
        _ => avp(33, 0x5F, 0, b"abc"),
    };
    let (function, bytes) = one_avp(function, nested(levels, leaf, beside));
    let limit = match limit {
        0 => Limit::Deepest(-1),
        1 => Limit::Deepest(0),
        2 => Limit::Deepest(1),
        3 => Limit::Is(64),
        4 => Limit::Is(63),
        _ => Limit::Is(1),
    };
    Draft {
        limit,
        ..Draft::at_ease(function, bytes)
    }
}

// ---- text

fn texts(case: u64, r: &mut Random) -> Draft {
    let mut run = Vec::new();
    if case < text::EDGES.div_ceil(text::TOGETHER) {
        for number in (case * text::TOGETHER..text::EDGES).take(text::TOGETHER as usize) {
            run.extend(plain(TEXTS[number as usize % TEXTS.len()], &text::edge(number)));
        }
    } else {
        for _ in 0..64 {
            let joined = [text::some(r, 0), text::some(r, 30), text::some(r, 0)].concat();
            run.extend(plain(r.pick(&TEXTS), &joined));
        }
    }
    Draft::at_ease(MESSAGE, around(&run))
}

// ---- real ones

// limits 0 to 66, capacities around the need, the header alone, and AVPs at the first hundred words
const REAL: u64 = 67 + 7 + 1 + 100;

const INTERESTING: [u32; 14] = [
    0,
    1,
    8,
    12,
    0x4000_0008,
    0x4000_000C,
    0x8000_000C,
    0xC000_0010,
    279,
    268,
    257,
    287,
    0x4000_0009,
    0xFFFF_FFFF,
];

fn mutate(r: &mut Random, bytes: &mut Vec<u8>) {
    if bytes.is_empty() {
        return bytes.push(r.byte());
    }
    let at = r.below(bytes.len());
    let word = at / 4 * 4;
    let end = (word + 4).min(bytes.len());
    match r.below(9) {
        0 => bytes[at] = r.byte(),
        1 => bytes[at] ^= 1 << r.below(8),
        2 => bytes[at] = bytes[at].wrapping_add(r.pick(&[1, 4, 0xFC, 0xFF])),
        3 => drop(bytes.splice(word..end, r.pick(&INTERESTING).to_be_bytes())),
        4 => drop(bytes.splice(word..word, r.pick(&INTERESTING).to_be_bytes())),
        5 => drop(bytes.drain(word..end)),
        6 => drop(bytes.remove(at)),
        7 => bytes.insert(at, r.byte()),
        _ => {
            let until = (word + 4 * (1 + r.below(8))).min(bytes.len());
            let again = bytes[word..until].to_vec();
            bytes.splice(word..word, again);
        }
    }
}

// ---- random ones

fn tree(r: &mut Random) -> (u8, Vec<u8>) {
    match r.below(12) {
        0 | 1 => {
            let shape = structured::shape(r);
            let mut bytes = structured::avp(r, shape);
            let more = r.pick(&[0, 0, 1, 8]);
            bytes.extend(r.bytes(more));
            (AVP_ALONE, bytes)
        }
        2 => (HEADER_ALONE, structured::some_message(r)),
        _ => (MESSAGE, structured::some_message(r)),
    }
}

// Any bytes, mostly small ones, after a plausible beginning.
fn noise(r: &mut Random) -> (u8, Vec<u8>) {
    let letters: &[u8] = r.pick(&[
        &[0, 1, 2, 4, 8, 12],
        &[0, 0, 0, 1, 8, 0x0C, 0x17, 0x40, 0x80],
        &[0x00, 0xFF],
    ]);
    let n = r.below(80);
    let mut bytes: Vec<u8> = (0..n)
        .map(|_| if r.chance(5) { r.byte() } else { r.pick(letters) })
        .collect();
    match r.below(4) {
        0 => return (AVP_ALONE, bytes),
        1 => {}
        _ => {
            if let Some(version) = bytes.first_mut() {
                *version = 1;
            }
            fix_length(&mut bytes);
        }
    }
    (r.pick(&[MESSAGE, MESSAGE, HEADER_ALONE]), bytes)
}

// Some thousand bytes of structured AVPs.
fn long(r: &mut Random) -> (u8, Vec<u8>) {
    let most = 4_000 + r.below(50_000);
    let shape = Shape {
        depth: 1 + r.below(5),
        faults: r.pick(&[0, 1]),
        width: 8,
    };
    let mut run = Vec::new();
    while run.len() < most {
        let more = structured::run(r, shape);
        if run.len() + more.len() > BYTES_MAX - HEADER {
            break;
        }
        run.extend(more);
    }
    (MESSAGE, around(&run))
}

// ---- large ones

const LARGE: u64 = 24;

fn large(case: u64, r: &mut Random) -> Draft {
    let room = BYTES_MAX - HEADER;
    let fill = |item: Vec<u8>, size: usize| item.repeat(size / item.len());
    let text = |size: usize| text::encoded(0x20AC).repeat(size / 3);
    let all = |bytes: Vec<u8>| Draft::at_ease(MESSAGE, around(&bytes));
    match case {
        0 => all(fill(plain(44, b""), room)),
        1 => Draft {
            capacity: Capacity::Needed(-1),
            ..all(fill(plain(44, b""), room))
        },
        2 => Draft {
            capacity: Capacity::Needed(0),
            ..all(fill(number(268, 2001), room))
        },
        // the last byte is one too many
        3 => all([fill(number(268, 2001), room - 12), vec![0]].concat()),
        4 => all(plain(44, &r.bytes(room - 8))),
        5 => all(plain(1, &text(room - 12))),
        6 => all(plain(1, &[text(room - 12), vec![0xE2]].concat())),
        7 => all(plain(1, &[vec![0x80], text(room - 12)].concat())),
        // with 2 MiB of stack the Rust dies of the deeper ones
        8 => all(nested(1_950, Vec::new(), false)),
        9 => all(nested(4_000, Vec::new(), false)),
        10 => all(nested(2_100, vec![0], false)),
        11 => Draft::at_ease(AVP_ALONE, nested(2_500, number(268, 1), false)),
        // every level of 64, of 65, with siblings on both sides
        12 => all(nested(63, fill(number(268, 1), 50_000), true)),
        13 => all(nested(64, fill(number(268, 1), 50_000), true)),
        14 => all(nested(64, Vec::new(), true).repeat(29)),
        // a group of many that fails at its last byte
        15 => all([
            plain(279, &[fill(plain(44, b"x"), 59_000), vec![0]].concat()),
            number(268, 1),
        ]
        .concat()),
        // groups that fail, each in the one before
        16 => {
            let mut run = vec![0];
            for _ in 0..40 {
                run = [plain(279, &run), fill(plain(44, b""), 1_000), vec![0]].concat();
            }
            all([run, vec![0; 3]].concat())
        }
        17 => {
            let mut run = vec![0];
            for _ in 0..50 {
                run = [fill(plain(44, b""), 1_000), avp(279, 0x40, 0, &run), vec![1, 2]].concat();
            }
            all(plain(279, &run))
        }
        18 => all(fill(plain(279, &number(268, 1)), room)),
        19 => all(fill(plain(279, b"x"), room)),
        20 => all(fill(avp(33, 0x9F, 10415, b"a"), room)),
        21 => {
            let mut bytes = around(&fill(plain(44, b""), room));
            bytes[1..4].fill(0xFF);
            Draft::at_ease(MESSAGE, bytes)
        }
        22 => Draft::at_ease(AVP_ALONE, plain(260, &fill(number(266, 9), room))),
        _ => {
            let mut bytes = around(&number(268, 1));
            bytes.extend(r.bytes(room - 12));
            Draft::at_ease(MESSAGE, bytes)
        }
    }
}
