//! RADIUS packets (RFC 2865), those of accounting too (RFC 2866).
//!
//! A packet is decoded as a message is, into [`Record`]s in memory that the caller lends, one for each attribute: its
//! [`code`](Record::code) is the attribute's type, its [`length`](Record::length) has the header's 2 bytes in it, its
//! [`depth`](Record::depth) is 1, it has no [`parent`](Record::parent), and flags, vendor and padding are 0. The iterator, the
//! [`Value`](crate::Value)s and the [`Refusal`]s are those of messages.
//!
//! ```
//! use tandrekily::{radius, Record, Value};
//!
//! // An Accounting-Request with Acct-Status-Type, NAS-IP-Address and Acct-Session-Id.
//! let packet = b"\x04\x07\0\x24\0\x01\x02\x03\x04\x05\x06\x07\x08\x09\x0A\x0B\x0C\x0D\x0E\x0F\
//!     \x28\x06\0\0\0\x01\
//!     \x04\x06\xC0\0\x02\x10\
//!     \x2C\x04A3";
//! let mut store = [0; 16 * Record::SIZE];
//! let decoded = radius::decode(packet, &mut store)?;
//!
//! assert_eq!((decoded.header.code, decoded.header.identifier), (4, 7));
//! for attribute in decoded.records() {
//!     match (attribute.record.code, attribute.value()) {
//!         (40, Value::Unsigned32(status)) => assert_eq!(status, 1),
//!         (4, Value::Address(address)) => assert_eq!(address.to_string(), "192.0.2.16"),
//!         (code, value) => assert_eq!((code, value), (44, Value::Utf8String("A3"))),
//!     }
//! }
//!
//! let mut out = [0; radius::MOST_LENGTH];
//! let total = radius::write(decoded.header, decoded.table(), packet, &mut out)?;
//! assert_eq!(out[..total], *packet);
//! # Ok::<(), tandrekily::Refusal>(())
//! ```
//!
//! A packet of one's own takes a record for each attribute and the bytes that their places point into:
//!
//! ```
//! use tandrekily::{radius, Record};
//!
//! let user_name = Record { code: 1, length: 2 + 3, depth: 1, ..Record::default() };
//! let header = radius::Header { code: 4, identifier: 7, ..radius::Header::default() };
//! let mut out = [0; 64];
//! let total = radius::write(header, &user_name.to_bytes(), b"bob", &mut out)?;
//!
//! assert_eq!(total, 25);
//! assert_eq!(out[20..25], *b"\x01\x05bob");
//! # Ok::<(), tandrekily::Refusal>(())
//! ```

use crate::record::Format;
use crate::{ffi, Record, Records, Refusal};

/// How long a packet may be.
pub const MOST_LENGTH: usize = 4096;

/// How many attributes a packet may have: a store with room for so many records has room for any packet.
pub const MOST_RECORDS: usize = (MOST_LENGTH - Header::SIZE) / 2;

/// The header of a packet, without the length, which is computed (RFC 2865, section 3).
#[derive(Clone, Copy, Debug, Default, PartialEq, Eq, Hash)]
pub struct Header {
    /// What the packet is, as 4 for an Accounting-Request. Any code is taken.
    pub code: u8,
    /// The identifier, by which a response is matched with its request.
    pub identifier: u8,
    /// The authenticator. It is neither checked nor computed.
    pub authenticator: [u8; 16],
}

impl Header {
    /// How many bytes a header has, its length among them.
    pub const SIZE: usize = 20;
}

/// A packet that was accepted.
#[derive(Clone, Debug)]
pub struct Packet<'a> {
    /// The header.
    pub header: Header,
    /// The [`error_flags`](crate::error_flags) of all attributes, joined.
    pub errors: u8,
    /// How many attributes were tried: as many as there are records.
    pub tried: usize,
    /// The length of the packet. What is past it in the input was not looked at.
    pub length: usize,
    records: Records<'a>,
}

impl<'a> Packet<'a> {
    /// The attributes, in their order.
    pub fn records(&self) -> Records<'a> {
        self.records.clone()
    }

    /// The table of records, as [`write()`] takes it.
    pub fn table(&self) -> &'a [u8] {
        self.records.as_bytes()
    }
}

/// The numbers of an acceptance.
fn accepted(numbers: ffi::RadiusNumbers) -> Result<ffi::RadiusNumbers, Refusal> {
    match numbers {
        [0, ..] => Ok(numbers),
        [number, amount, ..] => Err(Refusal::of(number, amount as usize)),
    }
}

/// Decodes the packet at the front of `input` into records in `store`, which holds one for every [`Record::SIZE`] bytes.
///
/// After an acceptance every byte past the last record is 0, to the end of the store. After a refusal the store is as it was lent.
/// Refused are, in this order: [`Incomplete`](Refusal::Incomplete) where the first 4 bytes are not there,
/// [`BadLength`](Refusal::BadLength) where the length is not 20 to 4,096, `Incomplete` where so many bytes are not there,
/// [`NotTiled`](Refusal::NotTiled), [`NoRecords`](Refusal::NoRecords).
///
/// | types | value | where the data are not so |
/// |---|---|---|
/// | text: 11, 18, 22, 44 | [`Utf8String`](crate::Value::Utf8String) | `Unhandled`, with where it broke; [`DATA_VALUE`](crate::error_flags::DATA_VALUE) |
/// | address: 4, 8, 9, 14 | [`Address`](crate::Value::Address) | not 4 bytes: `Unhandled`; [`DATA_LENGTH`](crate::error_flags::DATA_LENGTH) |
/// | integer: 5 to 7, 10, 12, 13, 15, 16, 23, 27 to 29, 37, 38, 40 to 43, 45 to 49, 51, 61, 62 | [`Unsigned32`](crate::Value::Unsigned32) | the same |
/// | string, or a format of its own: 1 to 3, 19, 20, 24 to 26, 30 to 36, 39, 50, 60, 63 | [`OctetString`](crate::Value::OctetString) | |
/// | all others | [`Unhandled`](crate::Value::Unhandled), without an error | |
pub fn decode<'a>(input: &'a [u8], store: &'a mut [u8]) -> Result<Packet<'a>, Refusal> {
    let (numbers, authenticator) = ffi::radius(input, store);
    let [_, _, errors, count, tried, length, code, identifier] = accepted(numbers)?;
    Ok(Packet {
        header: Header {
            code: code as u8,
            identifier: identifier as u8,
            authenticator,
        },
        errors: errors as u8,
        tried: tried as usize,
        length: length as usize,
        records: records(&store[..count as usize * Record::SIZE], input),
    })
}

/// The records of any table of attributes, such as one that was kept. The input should be that which it was decoded from, as for
/// [`Records::new`].
pub fn records<'a>(table: &'a [u8], input: &'a [u8]) -> Records<'a> {
    Records::of(table, Format::Radius, input)
}

/// Writes the packet of a table of records to the front of `out` and returns its length.
///
/// The places of the records point into `pool`, which for a table that was decoded is the input. Bytes of `out` past the packet stay,
/// and after a refusal all of them do. Refused are, in this order: [`BadTable`](Refusal::BadTable), [`TooLong`](Refusal::TooLong)
/// where the packet would be over 4,096 bytes, [`NoRoom`](Refusal::NoRoom).
///
/// A table is a row of [`Record`]s with nothing left over, in which
///
/// - the code is at most 255, and the length 2 to 255, with the header in it;
/// - the depth is 1, the parent None, and flags, vendor, padding count and padding are 0;
/// - the data are within the pool, and data of no bytes stand no further than at its end.
///
/// Kind, error flags and bits are not looked at.
pub fn write(header: Header, table: &[u8], pool: &[u8], out: &mut [u8]) -> Result<usize, Refusal> {
    let [.., length, _, _] = accepted(ffi::radius_write(header, table, pool, out))?;
    Ok(length as usize)
}
