//! Frames and answers as bytes. README.md says how they are laid out.

use crate::answer::{store_size, Accepted, Answer, ACCEPTED, AVP_ALONE};
use std::io::{self, Read};

/// The most bytes that a frame brings.
pub const BYTES_MAX: usize = 60_000;
/// The most records that a frame asks for.
pub const CAPACITY_MAX: u16 = 8_192;
/// The sawp reading; the Rust knows no other.
pub const SAWP: u8 = 0;

/// One question.
#[derive(Debug, Clone, PartialEq, Eq)]
pub struct Frame {
    pub function: u8,
    pub reading: u8,
    pub limit: u8,
    pub capacity: u16,
    pub bytes: Vec<u8>,
}

impl Frame {
    pub fn to_bytes(&self) -> Vec<u8> {
        let mut out = vec![self.function, self.reading, self.limit];
        out.extend(self.capacity.to_be_bytes());
        out.extend((self.bytes.len() as u32).to_be_bytes());
        out.extend(&self.bytes);
        out
    }

    /// The next frame, or none at the end of the input.
    pub fn read(from: &mut impl Read) -> io::Result<Option<Frame>> {
        let mut function = [0];
        if from.read(&mut function)? == 0 {
            return Ok(None);
        }
        let [reading, limit] = take(from)?;
        let capacity = u16::from_be_bytes(take(from)?);
        let mut bytes = vec![0; u32::from_be_bytes(take(from)?) as usize];
        from.read_exact(&mut bytes)?;
        Ok(Some(Frame {
            function: function[0],
            reading,
            limit,
            capacity,
            bytes,
        }))
    }
}

impl Answer {
    pub fn to_bytes(&self) -> Vec<u8> {
        let mut out = vec![self.number];
        out.extend(self.amount.to_be_bytes());
        if let Some(a) = &self.accepted {
            out.extend(a.header.iter().flatten());
            out.push(a.flags);
            out.extend(a.records.to_be_bytes());
            out.extend(a.tried.to_be_bytes());
            out.extend(a.length.to_be_bytes());
        }
        out.extend(&self.store);
        out
    }

    /// The next answer, to a question of this function and capacity.
    pub fn read(from: &mut impl Read, function: u8, capacity: u16) -> io::Result<Answer> {
        let [number] = take(from)?;
        let amount = u32::from_be_bytes(take(from)?);
        let accepted = if number == ACCEPTED {
            Some(Accepted {
                header: if function == AVP_ALONE { None } else { Some(take(from)?) },
                flags: u8::from_be_bytes(take(from)?),
                records: u16::from_be_bytes(take(from)?),
                tried: u32::from_be_bytes(take(from)?),
                length: u32::from_be_bytes(take(from)?),
            })
        } else {
            None
        };
        let mut store = vec![0; store_size(capacity)];
        from.read_exact(&mut store)?;
        Ok(Answer {
            number,
            amount,
            accepted,
            store,
        })
    }
}

fn take<const N: usize>(from: &mut impl Read) -> io::Result<[u8; N]> {
    let mut bytes = [0; N];
    from.read_exact(&mut bytes)?;
    Ok(bytes)
}
