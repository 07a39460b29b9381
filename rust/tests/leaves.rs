//! The three functions that take no message.

mod random;
mod texts;

use random::Random;
use tandrekily::{is_utf8, unix_seconds, utf8};
use texts::{any_text, longer_text, LONGEST};

/// A text behind up to 20 letters and before up to 20, as a name is that has one letter of another script.
fn amid_letters(text: &[u8], random: &mut Random) -> Vec<u8> {
    let mut letters = || vec![b'a'; random.next() as usize % 21];
    [&letters(), text, &letters()].concat()
}

/// Either both take the text for well-formed, or it breaks at the same byte for both.
fn agrees(text: &[u8]) {
    let theirs = std::str::from_utf8(text).err();
    let ours = utf8(text).err();
    assert_eq!(is_utf8(text), theirs.is_none(), "{text:02x?}");
    assert_eq!(
        ours.map(|error| error.valid_up_to()),
        theirs.map(|error| error.valid_up_to()),
        "{text:02x?}"
    );
}

#[test]
fn utf8_as_the_standard_library_has_it() {
    let mut random = Random(1);
    let texts: Vec<Vec<u8>> = (0..20_000).map(|_| any_text(&mut random)).collect();
    for text in &texts {
        agrees(text);
        agrees(&amid_letters(text, &mut random));
    }
    let well_formed = |size| texts.iter().any(|text| text.len() == size && is_utf8(text));
    assert!((0..=4).all(well_formed), "some size has no text to accept");
}

/// By `rust/test --release -- --ignored`: in a build for speed it takes a minute or two.
#[test]
#[ignore = "2^32 texts"]
fn every_text_of_up_to_four_bytes() {
    agrees(&[]);
    for size in 1..=4 {
        for text in 0..=u32::MAX >> (32 - 8 * size) {
            agrees(&text.to_be_bytes()[4 - size..]);
        }
    }
}

/// By the same command, in seconds. Texts break at every byte that one so long can.
#[test]
#[ignore = "ten million texts"]
fn ten_million_longer_texts() {
    let mut random = Random(4);
    let mut broken_at = [0; LONGEST];
    let mut well_formed = 0;
    for _ in 0..10_000_000 {
        let text = longer_text(&mut random);
        agrees(&text);
        match utf8(&text) {
            Ok(()) => well_formed += 1,
            Err(error) => broken_at[error.valid_up_to()] += 1,
        }
    }
    let least = broken_at.iter().min().copied();
    assert!(least > Some(1_000), "{broken_at:?}");
    assert!(well_formed > 1_000_000, "{well_formed}");
}

#[test]
fn seconds() {
    assert_eq!(unix_seconds(0x8000_0000), -61_505_152);
    assert_eq!(unix_seconds(2_208_988_800), 0);
    assert_eq!(unix_seconds(u32::MAX), 2_085_978_495);
    assert_eq!(unix_seconds(0), 2_085_978_496);
    assert_eq!(unix_seconds(0x7FFF_FFFF), 4_233_462_143);
}

#[test]
fn a_second_after_another() {
    let mut random = Random(2);
    let times = (0..20_000).map(|_| random.next() as u32);
    let ends = [0x8000_0000, u32::MAX, 0, 0x7FFF_FFFE];
    for time in times.chain(ends).filter(|&time| time != 0x7FFF_FFFF) {
        let next = time.wrapping_add(1);
        assert_eq!(unix_seconds(next), unix_seconds(time) + 1, "{time}");
    }
}
