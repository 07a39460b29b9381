//! The frames that crates/replay is run on; oracle/README.md and oracle/model.py have their layout.

use std::fs;

use tandrekily::{Limits, Reading, Record};

/// The store has some bytes past its last record, since those are cleared too.
const SPARE: usize = 5;

/// What the store holds as it is lent.
pub const LENT: u8 = 0xA5;

const FRAME_SIZE: usize = 9;

/// One case of the sample.
pub struct Frame {
    pub function: u8,
    pub reading: Reading,
    pub limits: Limits,
    pub room: usize,
    pub input: Vec<u8>,
}

impl Frame {
    pub fn store(&self) -> Vec<u8> {
        vec![LENT; self.room]
    }
}

pub fn be_u32(bytes: &[u8]) -> u32 {
    u32::from_be_bytes(bytes.try_into().expect("4 bytes"))
}

/// A file of crates/replay.
pub fn replay(name: &str) -> Vec<u8> {
    let path = format!("{}/../crates/replay/{name}", env!("CARGO_MANIFEST_DIR"));
    fs::read(&path).unwrap_or_else(|error| panic!("{path}: {error}"))
}

fn frame(bytes: &[u8]) -> Frame {
    let size = be_u32(&bytes[5..9]) as usize;
    let capacity = usize::from(bytes[3]) * 256 + usize::from(bytes[4]);
    Frame {
        function: bytes[0],
        reading: if bytes[1] == 0 {
            Reading::Sawp
        } else {
            Reading::Rfc
        },
        limits: Limits {
            depth: bytes[2].into(),
            ..Limits::default()
        },
        room: capacity * Record::SIZE + SPARE,
        input: bytes[FRAME_SIZE..FRAME_SIZE + size].to_vec(),
    }
}

/// All cases of the sample, in order.
pub fn frames() -> Vec<Frame> {
    let bytes = replay("stdin");
    let mut frames = Vec::new();
    let mut rest = &bytes[..];
    while !rest.is_empty() {
        let next = frame(rest);
        rest = &rest[FRAME_SIZE + next.input.len()..];
        frames.push(next);
    }
    assert!(
        frames.len() > 8000,
        "the sample is cut short: {} cases",
        frames.len()
    );
    frames
}
