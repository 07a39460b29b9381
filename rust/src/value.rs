//! What an AVP's data are (RFC 6733, sections 4.2 and 4.3).

use core::net::{IpAddr, Ipv4Addr, Ipv6Addr};
use core::str::from_utf8;

use crate::record::Format;
use crate::{Reading, Record};

/// The numbers of the kinds, in a record's [`kind`](crate::Record::kind).
pub mod kinds {
    /// No code of the reading, or data that the code doesn't take.
    pub const UNHANDLED: u8 = 0;
    /// Bytes.
    pub const OCTET_STRING: u8 = 1;
    /// A signed number of 32 bits. Only codes of the [editions](crate::Edition) yield it.
    pub const INTEGER32: u8 = 2;
    /// A signed number of 64 bits. Only codes of the [editions](crate::Edition) yield it.
    pub const INTEGER64: u8 = 3;
    /// A number of 32 bits.
    pub const UNSIGNED32: u8 = 4;
    /// A number of 64 bits.
    pub const UNSIGNED64: u8 = 5;
    /// A floating point number of 32 bits. No code yields it yet.
    pub const FLOAT32: u8 = 6;
    /// A floating point number of 64 bits. No code yields it yet.
    pub const FLOAT64: u8 = 7;
    /// A run of AVPs.
    pub const GROUPED: u8 = 8;
    /// One of a list of numbers.
    pub const ENUMERATED: u8 = 9;
    /// Text.
    pub const UTF8_STRING: u8 = 10;
    /// The name of a host or a realm.
    pub const DIAMETER_IDENTITY: u8 = 11;
    /// Where a peer is.
    pub const DIAMETER_URI: u8 = 12;
    /// An IP address.
    pub const ADDRESS: u8 = 13;
    /// Seconds since 1900.
    pub const TIME: u8 = 14;
}

/// The typed value of an AVP, or of an attribute of [RADIUS](crate::radius).
#[derive(Clone, Copy, Debug, PartialEq)]
#[non_exhaustive]
pub enum Value<'a> {
    /// A code that the reading doesn't know, or data that the code doesn't take; the record's error flags tell which.
    /// [`Avp::data`](crate::Avp::data) has the bytes.
    Unhandled {
        /// Of ill-formed text, how many bytes at the front of its [data](crate::Avp::data) are well-formed: the text broke at that
        /// byte, as [`Utf8Error::valid_up_to`](crate::Utf8Error::valid_up_to) has it. 0 for all else. It is never past the data, so
        /// `&data[..valid_up_to]` doesn't panic.
        valid_up_to: usize,
    },
    /// Bytes.
    OctetString(&'a [u8]),
    /// A signed number of 32 bits. Only codes of the [editions](crate::Edition) yield it.
    Integer32(i32),
    /// A signed number of 64 bits. Only codes of the [editions](crate::Edition) yield it.
    Integer64(i64),
    /// A number of 32 bits.
    Unsigned32(u32),
    /// A number of 64 bits.
    Unsigned64(u64),
    /// A floating point number of 32 bits. No code yields it yet.
    Float32(f32),
    /// A floating point number of 64 bits. No code yields it yet.
    Float64(f64),
    /// A group. Its members are the records after it that are deeper.
    Grouped,
    /// One of a list of numbers. The sawp reading takes the 32 bits as unsigned, the RFC reading and the editions as signed; an
    /// `i64` has room for both.
    Enumerated(i64),
    /// Text.
    Utf8String(&'a str),
    /// The name of a host or a realm. Only that it is text was checked.
    DiameterIdentity(&'a str),
    /// Where a peer is. Only that it is text was checked.
    DiameterUri(&'a str),
    /// An IP address.
    Address(IpAddr),
    /// The 32 bits of a time, which [`unix_seconds`](crate::unix_seconds) reads as one from 1968 to 2104.
    Time(u32),
}

impl<'a> Value<'a> {
    /// The value of a record that was decoded in this reading of this input, which by an edition is [`Reading::Rfc`].
    ///
    /// Any record is answered: where it doesn't fit the input, its value is [`Unhandled`](Value::Unhandled) with 0.
    pub fn new(record: &Record, reading: Reading, input: &'a [u8]) -> Value<'a> {
        Value::of(record, Format::Diameter(reading), input)
    }

    pub(crate) fn of(record: &Record, format: Format, input: &'a [u8]) -> Value<'a> {
        let data = format.data(record, input);
        let text = || from_utf8(data?).ok();
        let value = match record.kind {
            kinds::UNHANDLED => broken(record, data),
            kinds::OCTET_STRING => data.map(Value::OctetString),
            kinds::UTF8_STRING => text().map(Value::Utf8String),
            kinds::DIAMETER_IDENTITY => text().map(Value::DiameterIdentity),
            kinds::DIAMETER_URI => text().map(Value::DiameterUri),
            kinds::ADDRESS => address(record, format, data).map(Value::Address),
            kind => Value::of_bits(kind, format, record.bits),
        };
        value.unwrap_or(Value::Unhandled { valid_up_to: 0 })
    }

    /// Numbers stand in the record itself; those of 32 bits in its low half.
    fn of_bits(kind: u8, format: Format, bits: u64) -> Option<Value<'a>> {
        let low = bits as u32;
        Some(match kind {
            kinds::INTEGER32 => Value::Integer32(low as i32),
            kinds::INTEGER64 => Value::Integer64(bits as i64),
            kinds::UNSIGNED32 => Value::Unsigned32(low),
            kinds::UNSIGNED64 => Value::Unsigned64(bits),
            kinds::FLOAT32 => Value::Float32(f32::from_bits(low)),
            kinds::FLOAT64 => Value::Float64(f64::from_bits(bits)),
            kinds::GROUPED => Value::Grouped,
            kinds::ENUMERATED => Value::Enumerated(enumerated(format, low)),
            kinds::TIME => Value::Time(low),
            _ => return None,
        })
    }
}

/// Where the text broke. The decoder's number is always within the data; in another table it may be anything.
fn broken<'a>(record: &Record, data: Option<&[u8]>) -> Option<Value<'a>> {
    let valid_up_to = usize::try_from(record.bits).ok()?;
    (valid_up_to < data?.len()).then_some(Value::Unhandled { valid_up_to })
}

/// RADIUS has no kind for it.
fn enumerated(format: Format, bits: u32) -> i64 {
    match format {
        Format::Diameter(Reading::Rfc) => (bits as i32).into(),
        _ => bits.into(),
    }
}

/// RFC 6733, section 4.3.1: a family of 2 bytes stands before the address. The sawp reading and RADIUS know none.
fn family_size(format: Format) -> usize {
    match format {
        Format::Diameter(Reading::Rfc) => 2,
        _ => 0,
    }
}

/// The record tells the two families apart by the length alone.
fn address(record: &Record, format: Format, data: Option<&[u8]>) -> Option<IpAddr> {
    let address = data?.get(family_size(format)..)?;
    if address.len() == size_of::<Ipv4Addr>() {
        return Some(Ipv4Addr::from(record.bits as u32).into());
    }
    let v6: [u8; 16] = address.try_into().ok()?;
    Some(Ipv6Addr::from(v6).into())
}
