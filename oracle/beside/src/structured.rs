//! Random runs of AVPs that look like traffic, with a fault here and there.

use crate::random::Random;
use crate::text;
use crate::wire::{avp_head, message, padding, VENDOR};

/// The Grouped codes.
pub const GROUPS: [u32; 4] = [297, 279, 284, 260];
/// The codes of 32-bit values: Unsigned32, Enumerated and Time.
pub const NUMBERS: [u32; 27] = [
    85, 485, 259, 258, 291, 276, 298, 267, 299, 272, 278, 262, 268, 27, 270, 265, 266, 483, 480, 274, 277, 285, 273,
    261, 271, 295, 55,
];
/// The codes of text.
pub const TEXTS: [u32; 14] = [50, 25, 281, 269, 263, 1, 293, 235, 294, 264, 296, 280, 282, 292];
/// The other codes that have a kind: OctetString, Unsigned64, Address.
pub const REST: [u32; 4] = [44, 33, 287, 257];
/// Some codes without a kind.
pub const UNKNOWN: [u32; 12] = [0, 2, 26, 256, 283, 286, 416, 511, 512, 524, 0x0001_010C, 0xFFFF_FFFF];

/// The 49 codes.
pub fn codes() -> Vec<u32> {
    [&GROUPS[..], &NUMBERS, &TEXTS, &REST].concat()
}

/// How often something goes wrong, in percent, and how deep groups may go.
#[derive(Clone, Copy)]
pub struct Shape {
    pub depth: usize,
    pub faults: usize,
    pub width: usize,
}

pub fn shape(r: &mut Random) -> Shape {
    Shape {
        depth: r.pick(&[0, 1, 1, 2, 2, 3, 4, 6]),
        faults: r.pick(&[0, 2, 5, 15]),
        width: r.pick(&[1, 2, 3, 4, 6]),
    }
}

/// A message, its length mostly right, sometimes with more bytes after it.
pub fn some_message(r: &mut Random) -> Vec<u8> {
    let shape = shape(r);
    let mut out = message(
        if r.chance(80) { r.byte() & 0xF0 } else { r.byte() },
        r.word() & 0xFF_FFFF,
        r.word(),
        r.word(),
        r.word(),
        &run(r, shape),
    );
    if r.chance(15) {
        let more = 1 + r.below(9);
        out.extend(r.bytes(more));
    }
    if r.chance(shape.faults) {
        let at = r.below(4);
        out[at] = r.pick(&[0, 1, 2, 19, 20, out[at].wrapping_add(1), out[at].wrapping_sub(4)]);
    }
    out
}

/// A few AVPs one after the other.
pub fn run(r: &mut Random, shape: Shape) -> Vec<u8> {
    let mut out = Vec::new();
    for _ in 0..r.below(2 * shape.width + 1) {
        // groups in groups may not grow without end
        if out.len() < 4_000 {
            out.extend(avp(r, shape));
        }
    }
    out
}

/// One AVP.
pub fn avp(r: &mut Random, shape: Shape) -> Vec<u8> {
    let code = code(r, shape.depth);
    let data = if GROUPS.contains(&code) {
        group(r, shape)
    } else {
        data(r, code, shape.faults)
    };
    let flags = match r.below(100) {
        0..=59 => r.pick(&[0, 0x40, 0x40, 0x60]),
        60..=84 => VENDOR | r.pick(&[0, 0x40]),
        _ => r.byte(),
    };
    let head = if flags & VENDOR != 0 { 12 } else { 8 };
    let mut length = head + data.len();
    if r.chance(shape.faults / 2) {
        length = match r.below(4) {
            0 => length.saturating_sub(1 + r.below(4)),
            1 => length + 1 + r.below(4),
            2 => r.below(13),
            _ => r.word() as usize & 0xFF_FFFF,
        };
    }
    let mut out = avp_head(code, flags, length);
    if flags & VENDOR != 0 {
        out.extend(r.pick(&[0, 1, 9, 10415, u32::MAX]).to_be_bytes());
    }
    out.extend(&data);
    for _ in 0..padding(data.len()) {
        out.push(if r.chance(shape.faults) { r.byte() } else { 0 });
    }
    out
}

fn code(r: &mut Random, depth: usize) -> u32 {
    match r.below(100) {
        0..=29 if depth > 0 => r.pick(&GROUPS),
        0..=54 => r.pick(&NUMBERS),
        55..=74 => r.pick(&TEXTS),
        75..=87 => r.pick(&REST),
        88..=97 => r.pick(&UNKNOWN),
        _ => r.word(),
    }
}

// The payload of a group: a run one deeper, cut short or followed by some bytes where it is to fail.
fn group(r: &mut Random, shape: Shape) -> Vec<u8> {
    let inner = Shape {
        depth: shape.depth.saturating_sub(1),
        ..shape
    };
    let mut payload = run(r, inner);
    if r.chance(shape.faults * 2) {
        if r.chance(50) {
            payload.truncate(payload.len().saturating_sub(1 + r.below(7)));
        } else {
            let more = 1 + r.below(11);
            payload.extend(if r.chance(50) { vec![0; more] } else { r.bytes(more) });
        }
    }
    payload
}

fn data(r: &mut Random, code: u32, faults: usize) -> Vec<u8> {
    let usual = if NUMBERS.contains(&code) {
        4
    } else if TEXTS.contains(&code) {
        return text::some(r, faults * 2);
    } else if code == 287 {
        8
    } else if code == 257 {
        r.pick(&[4, 4, 16, 6, 18])
    } else {
        r.below(14)
    };
    let n = if r.chance(faults * 2) { r.below(20) } else { usual };
    r.bytes(n)
}
