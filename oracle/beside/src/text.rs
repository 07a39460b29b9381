//! Texts, well formed and not. RFC 3629, section 3.

use crate::random::Random;

/// The bytes that the table of section 3 gives for any number below 2^21, surrogates and numbers over 10FFFF too.
pub fn encoded(n: u32) -> Vec<u8> {
    let more = |shift: u32| 0x80 | (n >> shift) as u8 & 0x3F;
    match n {
        0..=0x7F => vec![n as u8],
        0x80..=0x7FF => vec![0xC0 | (n >> 6) as u8, more(0)],
        0x800..=0xFFFF => vec![0xE0 | (n >> 12) as u8, more(6), more(0)],
        _ => vec![0xF0 | (n >> 18) as u8 & 7, more(12), more(6), more(0)],
    }
}

/// A short text, ill formed in so many of a hundred times.
pub fn some(r: &mut Random, faults: usize) -> Vec<u8> {
    let mut out = Vec::new();
    for _ in 0..r.below(8) {
        let n = match r.below(10) {
            0..=6 => 0x20 + r.below(0x5F),
            7 => r.below(0x800),
            8 => r.below(0xD800),
            _ => 0x1_0000 + r.below(0x10_0000),
        };
        out.extend(encoded(n as u32));
    }
    if r.chance(faults) {
        match r.below(3) {
            0 => out.push(0x80 | r.byte()),
            1 => {
                out.pop();
            }
            _ if !out.is_empty() => {
                let at = r.below(out.len());
                out[at] = r.byte();
            }
            _ => out.extend(encoded(0xD800 + r.below(0x800) as u32)),
        }
    }
    out
}

/// Texts to be tried, so many in a message, each in an AVP of its own.
pub const TOGETHER: u64 = 256;

const NUMBERS: u64 = 0x12_0000;
const PAIRS: u64 = 0x1_0000;
const THIRDS: [u8; 10] = [0x00, 0x41, 0x7F, 0x80, 0x8F, 0x90, 0x9F, 0xA0, 0xBF, 0xC0];
const TRIPLES: u64 = 0x1_0000 * THIRDS.len() as u64;
const LEADS: [u8; 14] = [
    0x41, 0xC2, 0xDF, 0xE0, 0xED, 0xEF, 0xF0, 0xF1, 0xF3, 0xF4, 0xF5, 0xF7, 0xF8, 0xFF,
];
const ENDS: [u8; 4] = [0x7F, 0x80, 0xBF, 0xC0];
const FOURS: u64 = LEADS.len() as u64 * 0x1000;
/// How many texts there are at all: every number, every pair of bytes, and triples and fours around the edges.
pub const EDGES: u64 = NUMBERS + 0x100 + PAIRS + TRIPLES + FOURS;

/// The text of this number.
pub fn edge(number: u64) -> Vec<u8> {
    let mut n = number;
    if n < NUMBERS {
        return encoded(n as u32);
    }
    n -= NUMBERS;
    if n < 0x100 {
        return vec![n as u8];
    }
    n -= 0x100;
    let (high, low) = ((n >> 8) as u8, n as u8);
    if n < PAIRS {
        return vec![high, low];
    }
    n -= PAIRS;
    if n < TRIPLES {
        let (pair, third) = (n / THIRDS.len() as u64, n as usize % THIRDS.len());
        return vec![(pair >> 8) as u8, pair as u8, THIRDS[third]];
    }
    n -= TRIPLES;
    vec![
        LEADS[(n >> 12) as usize],
        (n >> 4) as u8,
        ENDS[(n >> 2) as usize & 3],
        ENDS[n as usize & 3],
    ]
}
