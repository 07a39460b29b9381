//! A result's 13 numbers, taken apart.

use crate::ffi::Numbers;
use crate::{Header, Refusal};

/// What an acceptance returns. What a function does not return is 0.
pub struct Answer {
    pub errors: u8,
    pub records: usize,
    pub tried: usize,
    pub length: usize,
    pub header: Header,
}

impl Answer {
    /// No cast drops a bit: the library widened each number from the type that it gets back here.
    pub fn of(numbers: Numbers) -> Result<Answer, Refusal> {
        let [number, amount, errors, records, tried, length, version, stated, flags, code, app_id, hop_id, end_id] =
            numbers;
        if number != 0 {
            return Err(Refusal::of(number, amount as usize));
        }
        Ok(Answer {
            errors: errors as u8,
            records: records as usize,
            tried: tried as usize,
            length: length as usize,
            header: Header {
                version: version as u8,
                length: stated as u32,
                flags: flags as u8,
                code: code as u32,
                app_id: app_id as u32,
                hop_id: hop_id as u32,
                end_id: end_id as u32,
            },
        })
    }
}
