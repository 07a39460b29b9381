//! Texts that are well-formed UTF-8, or nearly.

use crate::random::Random;

/// The code points that take one byte, two, three and four: the first, and how many.
const CODE_POINTS: [(u32, u32); 4] = [
    (0, 0x80),
    (0x80, 0x780),
    (0x800, 0xF800),
    (0x1_0000, 0x10_0000),
];

/// The longest that `longer_text` makes.
pub const LONGEST: usize = 64;

/// Up to four bytes. Most bytes of a text are continuations, and few random bytes are.
pub fn any_text(random: &mut Random) -> Vec<u8> {
    let size = random.next() as usize % 5;
    let mut text = random.next().to_be_bytes()[..size].to_vec();
    for byte in text.iter_mut().skip(1) {
        *byte = *byte & 0x3F | 0x80;
    }
    text
}

/// A character, of each size as often.
fn character(random: &mut Random) -> char {
    let (first, count) = CODE_POINTS[random.next() as usize % 4];
    let code_point = first + random.next() as u32 % count;
    char::from_u32(code_point).unwrap_or(char::REPLACEMENT_CHARACTER)
}

/// Characters of all sizes and letters, and among them now and then any text, which mostly is a fault. It is cut off anywhere.
pub fn longer_text(random: &mut Random) -> Vec<u8> {
    let mut text = Vec::with_capacity(2 * LONGEST);
    for _ in 0..random.next() % 24 {
        match random.next() % 16 {
            0 => text.extend(any_text(random)),
            1..4 => text.extend_from_slice(&b"abcdefghijkl"[..random.next() as usize % 13]),
            _ => text.extend_from_slice(character(random).encode_utf8(&mut [0; 4]).as_bytes()),
        }
    }
    text.truncate(LONGEST);
    text
}
