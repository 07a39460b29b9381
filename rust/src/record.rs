//! The records that a message is decoded into, and the iterator over them.

use core::iter::FusedIterator;

use crate::{Reading, Value};

/// One AVP as a row of the table: its header, where its data stand, and what was found of them. An attribute of
/// [RADIUS](crate::radius) is a row of the same fields.
///
/// A group stands before its members, which are one deeper. In the table a record is [`SIZE`](Record::SIZE) bytes, its numbers
/// big-endian; [`to_bytes`](Record::to_bytes) makes a row for [`write`](crate::write).
#[derive(Clone, Copy, Debug, Default, PartialEq, Eq, Hash)]
pub struct Record {
    /// The AVP code.
    pub code: u32,
    /// The AVP flags.
    pub flags: u8,
    /// The AVP length: header and data without the padding, 24 bits.
    pub length: u32,
    /// The Vendor-ID, and 0 without the 'V' bit.
    pub vendor_id: u32,
    /// Where the data stand in the input.
    pub place: u32,
    /// 1 for an AVP of the message itself, 2 for a member of such a group, and so on.
    pub depth: u8,
    /// One of [`kinds`](crate::kinds).
    pub kind: u8,
    /// The AVP's [`error_flags`](crate::error_flags); those of a group have its members' joined in.
    pub errors: u8,
    /// How many bytes of padding follow the data.
    pub padding: u8,
    /// The padding itself, the unused bytes 0.
    pub pads: [u8; 3],
    /// The value where it is a number or an IPv4 address, as its bits. Of ill-formed text, which is
    /// [`UNHANDLED`](crate::kinds::UNHANDLED), at which byte of the data it broke. Else 0. [`Value`] says what they mean.
    pub bits: u64,
    /// The index in the table of the group that the AVP is a member of: the last earlier record that is one less deep. At depth 1 it is
    /// None. [`Avp::parent`] gives the group itself.
    pub parent: Option<u32>,
}

/// A big-endian number of up to 8 bytes.
fn number(bytes: &[u8]) -> u64 {
    bytes.iter().fold(0, |n, &byte| n << 8 | u64::from(byte))
}

/// What a table is of: it says how long the header is that stands before the data, and how a value is read.
#[derive(Clone, Copy, Debug)]
pub(crate) enum Format {
    Diameter(Reading),
    Radius,
}

impl Format {
    /// An attribute's header is a type and a length (RFC 2865, section 5).
    fn header_size(self, flags: u8) -> usize {
        match self {
            Format::Diameter(_) => header_size(flags),
            Format::Radius => 2,
        }
    }

    /// The data of a record of this format. None where it doesn't fit the input.
    pub(crate) fn data<'a>(self, record: &Record, input: &'a [u8]) -> Option<&'a [u8]> {
        let header_size = self.header_size(record.flags);
        data_at(input, record.place as usize, header_size, record.length)
    }
}

/// How long an AVP's header is, by its flags.
pub(crate) fn header_size(flags: u8) -> usize {
    if flags & Record::VENDOR_SPECIFIC_FLAG != 0 {
        12
    } else {
        8
    }
}

/// The data behind a header of this size, which is in the length, if they stand at this place of the input.
pub(crate) fn data_at(
    input: &[u8],
    place: usize,
    header_size: usize,
    length: u32,
) -> Option<&[u8]> {
    let size = (length as usize).checked_sub(header_size)?;
    input.get(place..)?.get(..size)
}

impl Record {
    /// How many bytes a record has in the table.
    pub const SIZE: usize = 36;

    /// What stands in a row for a parent of None, so no index is as large.
    pub const TOP_LEVEL: u32 = u32::MAX;

    /// The 'V' bit.
    pub const VENDOR_SPECIFIC_FLAG: u8 = 0b1000_0000;

    /// The 'M' bit.
    pub const MANDATORY_FLAG: u8 = 0b0100_0000;

    /// The 'P' bit.
    pub const PROTECTED_FLAG: u8 = 0b0010_0000;

    /// The bits that are reserved.
    pub const RESERVED_MASK: u8 = 0b0001_1111;

    /// The record of a row of the table. Any 36 bytes are a record; byte 23 is not looked at.
    pub fn from_bytes(row: &[u8; Self::SIZE]) -> Record {
        Record {
            code: number(&row[0..4]) as u32,
            flags: row[4],
            length: number(&row[5..8]) as u32,
            vendor_id: number(&row[8..12]) as u32,
            place: number(&row[12..16]) as u32,
            depth: row[16],
            kind: row[17],
            errors: row[18],
            padding: row[19],
            pads: [row[20], row[21], row[22]],
            bits: number(&row[24..32]),
            parent: Some(number(&row[32..36]) as u32).filter(|&index| index != Self::TOP_LEVEL),
        }
    }

    /// The record as a row of the table. Of the length the low 24 bits are taken.
    pub fn to_bytes(&self) -> [u8; Self::SIZE] {
        let mut row = [0; Self::SIZE];
        row[0..4].copy_from_slice(&self.code.to_be_bytes());
        row[4..8].copy_from_slice(&self.length.to_be_bytes());
        row[4] = self.flags;
        row[8..12].copy_from_slice(&self.vendor_id.to_be_bytes());
        row[12..16].copy_from_slice(&self.place.to_be_bytes());
        row[16] = self.depth;
        row[17] = self.kind;
        row[18] = self.errors;
        row[19] = self.padding;
        row[20..23].copy_from_slice(&self.pads);
        row[24..32].copy_from_slice(&self.bits.to_be_bytes());
        let parent = self.parent.unwrap_or(Self::TOP_LEVEL);
        row[32..36].copy_from_slice(&parent.to_be_bytes());
        row
    }

    /// Does the AVP have a Vendor-ID?
    pub fn is_vendor_specific(&self) -> bool {
        self.flags & Self::VENDOR_SPECIFIC_FLAG != 0
    }

    /// Must the receiver understand the AVP?
    pub fn is_mandatory(&self) -> bool {
        self.flags & Self::MANDATORY_FLAG != 0
    }

    /// The 'P' bit, reserved for end-to-end security.
    pub fn is_protected(&self) -> bool {
        self.flags & Self::PROTECTED_FLAG != 0
    }

    /// The bits that are reserved, as they were sent.
    pub fn get_reserved(&self) -> u8 {
        self.flags & Self::RESERVED_MASK
    }

    /// How long the AVP's header is: 8 bytes, and 12 with the Vendor-ID.
    pub fn header_size(&self) -> usize {
        header_size(self.flags)
    }

    /// The AVP's data in the input that the record came from. None where the record doesn't fit this input. A record doesn't know
    /// that it is of RADIUS, where the header is shorter: [`Avp::data`] does.
    pub fn data<'a>(&self, input: &'a [u8]) -> Option<&'a [u8]> {
        data_at(input, self.place as usize, self.header_size(), self.length)
    }
}

/// A record with the input at hand, so that its data and its value can be had: an AVP, or an attribute of [RADIUS](crate::radius).
#[derive(Clone, Copy, Debug)]
pub struct Avp<'a> {
    /// The row of the table.
    pub record: Record,
    /// The rows before it.
    earlier: &'a [u8],
    format: Format,
    input: &'a [u8],
}

impl<'a> Avp<'a> {
    /// The data, without the padding. None only if the table isn't of this input.
    pub fn data(&self) -> Option<&'a [u8]> {
        self.format.data(&self.record, self.input)
    }

    /// The value. Text is checked again here, so ask once.
    pub fn value(&self) -> Value<'a> {
        Value::of(&self.record, self.format, self.input)
    }

    /// The group that the AVP is a member of, by one look into the table. None at the top level.
    ///
    /// A parent that isn't an earlier row, as a table that isn't the decoder's may have, is None too: a walk up always ends.
    ///
    /// ```
    /// use tandrekily::{decode_avp, Limits, Reading, Record};
    ///
    /// // A Failed-AVP with a Result-Code in it.
    /// let avp = b"\0\0\x01\x17\x40\0\0\x14\0\0\x01\x0C\x40\0\0\x0C\0\0\x07\xD1";
    /// let mut store = [0; 2 * Record::SIZE];
    /// let decoded = decode_avp(avp, Reading::Rfc, Limits::default(), &mut store)?;
    ///
    /// let result_code = decoded.records().last().unwrap();
    /// let failed_avp = result_code.parent().unwrap();
    /// assert_eq!(failed_avp.record.code, 279);
    /// assert!(failed_avp.parent().is_none());
    /// # Ok::<(), tandrekily::Refusal>(())
    /// ```
    pub fn parent(&self) -> Option<Avp<'a>> {
        let start = (self.record.parent? as usize).checked_mul(Record::SIZE)?;
        let (earlier, rows) = self.earlier.split_at_checked(start)?;
        Some(Avp {
            record: Record::from_bytes(rows.first_chunk()?),
            earlier,
            ..*self
        })
    }
}

/// An iterator over the AVPs or attributes of a table, each group before its members.
#[derive(Clone, Debug)]
pub struct Records<'a> {
    /// All rows but those that were given from the back.
    table: &'a [u8],
    /// Where the rows that are left start.
    start: usize,
    format: Format,
    input: &'a [u8],
}

impl<'a> Records<'a> {
    /// The records of any table, such as one that was kept: the reading and the input should be those that it was decoded from,
    /// and [`Reading::Rfc`] for one by an edition. Nothing is asked of them all the same. Bytes after the last whole record are
    /// left out. [`radius::records`](crate::radius::records) is for those of RADIUS.
    pub fn new(table: &'a [u8], reading: Reading, input: &'a [u8]) -> Records<'a> {
        Records::of(table, Format::Diameter(reading), input)
    }

    pub(crate) fn of(table: &'a [u8], format: Format, input: &'a [u8]) -> Records<'a> {
        let whole = table.len() - table.len() % Record::SIZE;
        Records {
            table: &table[..whole],
            start: 0,
            format,
            input,
        }
    }

    /// The rows that are left to iterate over. Parents are indices in the whole table, so [`write`](crate::write) takes these rows
    /// where none was taken from the front.
    pub fn as_bytes(&self) -> &'a [u8] {
        &self.table[self.start..]
    }

    fn avp(&self, earlier: &'a [u8], row: &[u8; Record::SIZE]) -> Avp<'a> {
        Avp {
            record: Record::from_bytes(row),
            earlier,
            format: self.format,
            input: self.input,
        }
    }
}

impl<'a> Iterator for Records<'a> {
    type Item = Avp<'a>;

    fn next(&mut self) -> Option<Avp<'a>> {
        let (earlier, left) = self.table.split_at(self.start);
        let row = left.first_chunk()?;
        self.start += Record::SIZE;
        Some(self.avp(earlier, row))
    }

    fn size_hint(&self) -> (usize, Option<usize>) {
        let left = self.as_bytes().len() / Record::SIZE;
        (left, Some(left))
    }
}

impl DoubleEndedIterator for Records<'_> {
    fn next_back(&mut self) -> Option<Self::Item> {
        let row = self.as_bytes().last_chunk()?;
        self.table = &self.table[..self.table.len() - Record::SIZE];
        Some(self.avp(self.table, row))
    }
}

impl ExactSizeIterator for Records<'_> {}

impl FusedIterator for Records<'_> {}
