//! The AVPs at the top level of a message, without a look at their data or into a group.

use core::iter::FusedIterator;

use crate::record::{data_at, header_size, Record};
use crate::{ffi, header, Header, Refusal};

/// What is given of an AVP without its data being looked at. The fields are those of its [`Record`].
#[derive(Clone, Copy, Debug, Default, PartialEq, Eq, Hash)]
pub struct Outline {
    /// The AVP code.
    pub code: u32,
    /// The AVP flags.
    pub flags: u8,
    /// The AVP length: header and data without the padding, 24 bits.
    pub length: u32,
    /// The Vendor-ID, and 0 without the 'V' bit.
    pub vendor_id: u32,
    /// Where the data stand in the input.
    pub place: usize,
    /// How many bytes of padding follow the data.
    pub padding: u8,
    /// The padding itself, the unused bytes 0.
    pub pads: [u8; 3],
}

impl Outline {
    /// How many bytes [`to_bytes`](Outline::to_bytes) gives.
    pub const SIZE: usize = 20;

    /// No cast drops a bit: the library widened each number from the type that it gets back here, and the pads from three bytes.
    fn of(numbers: ffi::OutlineNumbers) -> Result<Option<Outline>, Refusal> {
        let [number, amount, found, code, flags, length, vendor_id, place, padding, pads] = numbers;
        if number != 0 {
            return Err(Refusal::of(number, amount as usize));
        }
        if found == 0 {
            return Ok(None);
        }
        let [.., first, second, third] = pads.to_be_bytes();
        Ok(Some(Outline {
            code: code as u32,
            flags: flags as u8,
            length: length as u32,
            vendor_id: vendor_id as u32,
            place: place as usize,
            padding: padding as u8,
            pads: [first, second, third],
        }))
    }

    /// The record of the AVP, as far as it is known.
    fn record(&self) -> Record {
        Record {
            code: self.code,
            flags: self.flags,
            length: self.length,
            vendor_id: self.vendor_id,
            place: self.place as u32,
            padding: self.padding,
            pads: self.pads,
            ..Record::default()
        }
    }

    /// Bytes 0 to 15 and 19 to 22 of the AVP's record. Of the length the low 24 bits are taken, and of the place the low 32.
    pub fn to_bytes(&self) -> [u8; Self::SIZE] {
        let row = self.record().to_bytes();
        let mut bytes = [0; Self::SIZE];
        bytes[..16].copy_from_slice(&row[..16]);
        bytes[16..].copy_from_slice(&row[19..23]);
        bytes
    }

    /// Does the AVP have a Vendor-ID?
    pub fn is_vendor_specific(&self) -> bool {
        self.flags & Record::VENDOR_SPECIFIC_FLAG != 0
    }

    /// How long the AVP's header is: 8 bytes, and 12 with the Vendor-ID.
    pub fn header_size(&self) -> usize {
        header_size(self.flags)
    }

    /// The AVP's data in the input that the outline came from. None where the outline doesn't fit this input.
    pub fn data<'a>(&self, input: &'a [u8]) -> Option<&'a [u8]> {
        data_at(input, self.place, self.header_size(), self.length)
    }
}

/// Finds the first AVP with a code at the top level of the message at the front of `input`.
///
/// The headers of the AVPs up to that one are read, and no group is entered. A vendor doesn't hide an AVP: look at the outline's.
/// What [`header()`] refuses is refused; then [`NotTiled`](Refusal::NotTiled) is, if the AVPs break off and none before that
/// place has the code.
pub fn find(input: &[u8], code: u32) -> Result<Option<Outline>, Refusal> {
    Outline::of(ffi::find(input, code))
}

/// An iterator over the AVPs at the top level of a message, which are read one by one as they are asked for.
///
/// At a place where no AVP is complete it gives one [`NotTiled`](Refusal::NotTiled), and then no more.
#[derive(Clone, Debug)]
pub struct Reader<'a> {
    message: &'a [u8],
    place: usize,
    broken: bool,
}

impl<'a> Reader<'a> {
    /// A reader of the message at the front of `input`, before its first AVP. It refuses what [`header()`] does.
    pub fn new(input: &'a [u8]) -> Result<Reader<'a>, Refusal> {
        let (header, _) = header(input)?;
        Ok(Reader {
            message: &input[..header.length as usize],
            place: Header::SIZE,
            broken: false,
        })
    }

    /// Where the reader stands in the message: at the next AVP, at the end, or where no AVP is complete.
    /// It never stands past the end.
    pub fn place(&self) -> usize {
        self.place
    }

    /// The first AVP with a code from where the reader stands, past which it moves. Where there is none it stays, and the answer is
    /// [`NotTiled`](Refusal::NotTiled) if the AVPs break off.
    ///
    /// The `find` that every iterator has is called as `Iterator::find(&mut reader, ...)`.
    pub fn find(&mut self, code: u32) -> Result<Option<Outline>, Refusal> {
        let mut ahead = self.clone();
        while let Some(outline) = ahead.step()? {
            if outline.code == code {
                *self = ahead;
                return Ok(Some(outline));
            }
        }
        Ok(None)
    }

    /// Where there is no AVP the library gives the place back.
    fn step(&mut self) -> Result<Option<Outline>, Refusal> {
        let (numbers, place) = ffi::next(self.message, self.place);
        self.place = place;
        Outline::of(numbers)
    }
}

impl Iterator for Reader<'_> {
    type Item = Result<Outline, Refusal>;

    fn next(&mut self) -> Option<Self::Item> {
        if self.broken {
            return None;
        }
        let step = self.step();
        self.broken = step.is_err();
        step.transpose()
    }
}

impl FusedIterator for Reader<'_> {}
