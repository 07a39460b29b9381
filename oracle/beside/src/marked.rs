//! The marked messages (docs/FORMAT.md, 10), P1 to P13, and some more whose answers were worked out by hand.

use crate::answer::{AVP_ALONE, HEADER_ALONE, MESSAGE};
use sawp_diameter::diameter::inside::TOP_LEVEL as TOP;

/// Depth, code, kind, error flags, length, value and parent of a record.
type Row = (u8, u32, u8, u8, u32, u64, u32);

/// A question and what is known of its answer.
pub struct Marked {
    pub name: &'static str,
    pub function: u8,
    pub limit: u8,
    pub capacity: u16,
    /// Hexadecimal; `*4` after a byte repeats it.
    hex: &'static str,
    pub number: u8,
    pub amount: u32,
    /// If accepted: flags, tried and length.
    pub accepted: (u8, u32, u32),
    /// If accepted.
    pub records: &'static [Row],
}

impl Marked {
    pub fn bytes(&self) -> Vec<u8> {
        let mut out = Vec::new();
        for item in self.hex.split_whitespace() {
            let (digits, times) = item.split_once('*').unwrap_or((item, "1"));
            let byte = u8::from_str_radix(digits, 16).expect("two digits");
            out.resize(out.len() + times.parse::<usize>().expect("a number"), byte);
        }
        out
    }
}

const fn refused(
    name: &'static str,
    function: u8,
    limit: u8,
    capacity: u16,
    hex: &'static str,
    number: u8,
    amount: u32,
) -> Marked {
    Marked {
        name,
        function,
        limit,
        capacity,
        hex,
        number,
        amount,
        accepted: (0, 0, 0),
        records: &[],
    }
}

const fn accepted(
    name: &'static str,
    function: u8,
    limit: u8,
    hex: &'static str,
    accepted: (u8, u32, u32),
    records: &'static [Row],
) -> Marked {
    Marked {
        name,
        function,
        limit,
        capacity: 64,
        hex,
        number: 0,
        amount: 0,
        accepted,
        records,
    }
}

const P8: &str = "01 00 00 24 00*16 00 00 01 0C 00 00 00 0D 00 00 07 D1 00 00 00 00";
const P11: &str = "01 00 00 20 00*16 00 00 01 17 00 00 00 09 00 00 00 00";
const P12: &str = "01 00 00 1C 00*16 00 00 01 17 00 00 00 08";
const DROPPED: &str = "01 00 00 2C 00*16 00 00 01 17 00 00 00 15 00 00 01 17 00 00 00 09 00 00 00 00 00 00 00 00";

// A number; a group of a number, a group of one, and a number behind it; a group of an empty one; a number.
const NESTED: &str = "01 00 00 70 00*16 00 00 01 0C 00 00 00 0C 00 00 07 D1 00 00 01 17 00 00 00 34 \
    00 00 01 0C 00 00 00 0C 00 00 07 D1 00 00 01 17 00 00 00 14 00 00 01 0C 00 00 00 0C 00 00 07 D1 \
    00 00 01 0C 00 00 00 0C 00 00 07 D1 00 00 01 17 00 00 00 10 00 00 01 17 00 00 00 08 \
    00 00 01 0C 00 00 00 0C 00 00 07 D1";
const GROUP: &str = "00 00 01 17 00 00 00 34 00 00 01 0C 00 00 00 0C 00 00 07 D1 \
    00 00 01 17 00 00 00 14 00 00 01 0C 00 00 00 0C 00 00 07 D1 00 00 01 0C 00 00 00 0C 00 00 07 D1";
const FAILING: &str = "01 00 00 34 00*16 00 00 01 17 00 00 00 20 00 00 01 17 00 00 00 09 00 00 00 00 \
    00 00 01 0C 00 00 00 0C 00 00 07 D1";

pub const MARKED: [Marked; 29] = [
    refused("P1", MESSAGE, 64, 64, "", 1, 1),
    refused("P2", MESSAGE, 64, 64, "02", 2, 0),
    refused("P3", MESSAGE, 64, 64, "01 00", 1, 2),
    refused("P4", MESSAGE, 64, 64, "01 00 00 03", 3, 0),
    refused("P5", MESSAGE, 64, 64, "01 00 00 13 00*4", 1, 11),
    refused("P6", MESSAGE, 64, 64, "01 00 00 13 00*15", 3, 0),
    accepted("P7", MESSAGE, 64, "01 00 00 14 00*16", (0, 0, 20), &[]),
    accepted("P8", MESSAGE, 64, P8, (2, 1, 36), &[(1, 268, 4, 2, 13, 2001, TOP)]),
    accepted(
        "P9",
        MESSAGE,
        64,
        "01 00 00 20 00*16 00 00 01 0C 00 00 00 0B 00 00 00 00",
        (2, 1, 32),
        &[(1, 268, 0, 2, 11, 0, TOP)],
    ),
    refused(
        "P10",
        MESSAGE,
        64,
        64,
        "01 00 00 21 00*16 00 00 01 0C 00 00 00 0D 00 00 07 D1 00",
        4,
        0,
    ),
    accepted("P11", MESSAGE, 64, P11, (1, 2, 32), &[(1, 279, 0, 1, 9, 0, TOP)]),
    refused("P11, limit 1", MESSAGE, 1, 64, P11, 5, 0),
    accepted("P12", MESSAGE, 64, P12, (0, 1, 28), &[(1, 279, 8, 0, 8, 0, TOP)]),
    accepted(
        "P12, limit 1",
        MESSAGE,
        1,
        P12,
        (0, 1, 28),
        &[(1, 279, 8, 0, 8, 0, TOP)],
    ),
    refused("P13", MESSAGE, 64, 0, P8, 6, 1),
    refused("limit 0 comes first", MESSAGE, 0, 0, "", 7, 0),
    refused("limit 65", AVP_ALONE, 65, 0, "", 7, 0),
    refused(
        "NotTiled before TooDeep",
        MESSAGE,
        1,
        64,
        "01 00 00 21 00*16 00 00 01 17 00 00 00 09 00 00 00 00 00",
        4,
        0,
    ),
    refused("TooDeep before NoRecords", MESSAGE, 1, 0, P11, 5, 0),
    refused(
        "a failing group in a failing group, limit 2",
        MESSAGE,
        2,
        64,
        DROPPED,
        5,
        0,
    ),
    accepted(
        "a failing group in a failing group, limit 3",
        MESSAGE,
        3,
        DROPPED,
        (1, 4, 44),
        &[(1, 279, 0, 1, 21, 0, TOP)],
    ),
    accepted(
        "members of several groups",
        MESSAGE,
        64,
        NESTED,
        (0, 9, 112),
        &[
            (1, 268, 4, 0, 12, 2001, TOP),
            (1, 279, 8, 0, 52, 0, TOP),
            (2, 268, 4, 0, 12, 2001, 1),
            (2, 279, 8, 0, 20, 0, 1),
            (3, 268, 4, 0, 12, 2001, 3),
            (2, 268, 4, 0, 12, 2001, 1),
            (1, 279, 8, 0, 16, 0, TOP),
            (2, 279, 8, 0, 8, 0, 6),
            (1, 268, 4, 0, 12, 2001, TOP),
        ],
    ),
    accepted(
        "AVP alone, a group",
        AVP_ALONE,
        64,
        GROUP,
        (0, 5, 52),
        &[
            (1, 279, 8, 0, 52, 0, TOP),
            (2, 268, 4, 0, 12, 2001, 0),
            (2, 279, 8, 0, 20, 0, 0),
            (3, 268, 4, 0, 12, 2001, 2),
            (2, 268, 4, 0, 12, 2001, 0),
        ],
    ),
    accepted(
        "a failing group before a member",
        MESSAGE,
        64,
        FAILING,
        (1, 4, 52),
        &[
            (1, 279, 8, 1, 32, 0, TOP),
            (2, 279, 0, 1, 9, 0, 0),
            (2, 268, 4, 0, 12, 2001, 0),
        ],
    ),
    refused(
        "header alone, all of the message wanted",
        HEADER_ALONE,
        0,
        0,
        "01 00 00 24 00*16",
        1,
        16,
    ),
    refused("AVP alone, empty", AVP_ALONE, 64, 64, "", 1, 4),
    refused("AVP alone, 4 bytes", AVP_ALONE, 64, 64, "00*4", 1, 1),
    refused(
        "AVP alone, short of its length before the vendor",
        AVP_ALONE,
        64,
        64,
        "00 00 00 2C 80 00 00 09",
        1,
        1,
    ),
    refused(
        "AVP alone, no room for the vendor",
        AVP_ALONE,
        64,
        64,
        "00 00 00 2C 80 00 00 09 00",
        3,
        0,
    ),
];
