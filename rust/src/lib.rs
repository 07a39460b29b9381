//! A decoder and a writer of Diameter messages (RFC 6733) and of [RADIUS](radius) packets (RFC 2865, RFC 2866), over a library in which
//! every function is proved to meet its contract.
//!
//! A message is decoded into a flat table of [`Record`]s in memory that the caller lends; an iterator gives each AVP with its
//! typed [`Value`]. The writer turns such a table back into a message. Nothing is allocated, nothing is asked of the bytes, and a
//! [`Refusal`] has changed no byte that was lent. The crate needs neither `std` nor `alloc`.
//!
//! # Decoding
//!
//! ```
//! use tandrekily::{decode, error_flags, Limits, Reading, Record, Value};
//!
//! // A header, and a Result-Code with a fifth byte of data.
//! let message = [
//!     1, 0, 0, 36, 0, 0, 0, 0, 0, 0, 0, 0, 0, 0, 0, 0, 0, 0, 0, 0, //
//!     0, 0, 1, 12, 0, 0, 0, 13, 0, 0, 7, 209, 0, 0, 0, 0,
//! ];
//! let mut store = [0; 64 * Record::SIZE];
//! let decoded = decode(&message, Reading::Sawp, Limits::default(), &mut store)?;
//!
//! assert_eq!(decoded.length, 36);
//! assert_eq!(decoded.errors, error_flags::DATA_LENGTH);
//! for avp in decoded.records() {
//!     assert_eq!(avp.record.code, 268);
//!     assert_eq!(avp.value(), Value::Unsigned32(2001));
//! }
//! # Ok::<(), tandrekily::Refusal>(())
//! ```
//!
//! # Groups
//!
//! A group stands before its members, and each member has the [index](Record::parent) of its group: [`Avp::parent`] gives the group of
//! an AVP without a search. A walk up gives its path:
//!
//! ```
//! use core::iter::successors;
//! use tandrekily::{decode, Limits, Reading, Record};
//!
//! // A header, and a Result-Code in a Proxy-Info in a Failed-AVP.
//! let message = b"\x01\0\0\x30\0\0\0\0\0\0\0\0\0\0\0\0\0\0\0\0\
//!     \0\0\x01\x17\0\0\0\x1C\
//!     \0\0\x01\x1C\0\0\0\x14\
//!     \0\0\x01\x0C\0\0\0\x0C\0\0\x07\xD1";
//! let mut store = [0; 4 * Record::SIZE];
//! let decoded = decode(message, Reading::Rfc, Limits::default(), &mut store)?;
//!
//! let path = successors(decoded.records().last(), |avp| avp.parent());
//! assert!(path.map(|avp| avp.record.code).eq([268, 284, 279]));
//! # Ok::<(), tandrekily::Refusal>(())
//! ```
//!
//! # Credit-control
//!
//! By an [`Edition`] the codes of RFC 4006 or RFC 8506 are read too, with [`decode_by`] and [`decode_avp_by`]. Two amounts are
//! compared exactly as [`UnitValue`]s:
//!
//! ```
//! use core::cmp::Ordering;
//! use tandrekily::{decode_avp_by, Edition, Limits, Record, UnitValue, Value};
//!
//! // A Unit-Value with Value-Digits of 1050 and an Exponent of -2.
//! let avp = b"\0\0\x01\xBD\x40\0\0\x24\
//!     \0\0\x01\xBF\x40\0\0\x10\0\0\0\0\0\0\x04\x1A\
//!     \0\0\x01\xAD\x40\0\0\x0C\xFF\xFF\xFF\xFE";
//! let mut store = [0; 8 * Record::SIZE];
//! let decoded = decode_avp_by(avp, Edition::Rfc8506, Limits::default(), &mut store)?;
//!
//! let mut amount = UnitValue::default();
//! for avp in decoded.records() {
//!     match (avp.record.code, avp.value()) {
//!         (447, Value::Integer64(digits)) => amount.digits = digits,
//!         (429, Value::Integer32(exponent)) => amount.exponent = exponent,
//!         (_, other) => assert_eq!(other, Value::Grouped),
//!     }
//! }
//! let ten = UnitValue { digits: 10, exponent: 0 };
//! assert_eq!(amount.compare(ten)?, Ordering::Greater);
//! # Ok::<(), tandrekily::Refusal>(())
//! ```
//!
//! # Finding one AVP
//!
//! Where one AVP is all that is wanted, [`find`] gives its [`Outline`]. It reads the headers of the AVPs up to that one, enters no
//! group and needs no store. A [`Reader`] goes over the AVPs one by one, or from one with a code to the next:
//!
//! ```
//! use tandrekily::{find, Reader};
//!
//! // A header, two Route-Records and a Session-Id.
//! let message = b"\x01\0\0\x3C\0\0\0\0\0\0\0\0\0\0\0\0\0\0\0\0\
//!     \0\0\x01\x1A\0\0\0\x09a\0\0\0\
//!     \0\0\x01\x1A\0\0\0\x09b\0\0\0\
//!     \0\0\x01\x07\0\0\0\x0Da;1;2\0\0\0";
//! let session_id = find(message, 263)?.and_then(|avp| avp.data(message));
//! assert_eq!(session_id, Some(&b"a;1;2"[..]));
//!
//! let mut reader = Reader::new(message)?;
//! let mut routes = 0;
//! while let Some(avp) = reader.find(282)? {
//!     assert_eq!(avp.data(message).map(<[u8]>::len), Some(1));
//!     routes += 1;
//! }
//! assert_eq!(routes, 2);
//! # Ok::<(), tandrekily::Refusal>(())
//! ```
//!
//! # Writing
//!
//! What was decoded is written back byte for byte: `write(decoded.header.into(), decoded.table(), &message, &mut out)`. A message
//! of one's own takes a record for each AVP and the bytes that their places point into:
//!
//! ```
//! use tandrekily::{kinds, write, Fields, Header, Record};
//!
//! // A User-Name, whose three bytes of data need one of padding.
//! let user_name = Record {
//!     code: 1,
//!     flags: Record::MANDATORY_FLAG,
//!     length: 8 + 3,
//!     depth: 1,
//!     kind: kinds::UTF8_STRING,
//!     padding: 1,
//!     ..Record::default()
//! };
//! let fields = Fields { flags: Header::REQUEST_FLAG, code: 271, ..Fields::default() };
//! let mut out = [0; 64];
//! let total = write(fields, &user_name.to_bytes(), b"bob", &mut out)?;
//!
//! assert_eq!(total, 32);
//! assert_eq!(out[20..32], *b"\0\0\0\x01\x40\0\0\x0Bbob\0");
//! # Ok::<(), tandrekily::Refusal>(())
//! ```
//!
//! # Joining
//!
//! A caller who has decoded two messages, as fragments of a report, gets the table of the message that holds the AVPs
//! of both without decoding it. [`shift`] moves the second's records to where they stand behind the first's:
//! `shift(table, first.length - Header::SIZE, first.records().len())`.

#![no_std]
#![deny(missing_docs)]
#![deny(unsafe_code)]
#![deny(unsafe_op_in_unsafe_fn)]

mod answer;
mod edition;
#[allow(unsafe_code)]
mod ffi;
mod header;
mod joining;
pub mod radius;
mod reader;
mod record;
mod refusal;
mod unit_value;
mod utf8;
mod value;

use answer::Answer;
pub use edition::Edition;
pub use header::{Fields, Header};
pub use joining::shift;
pub use reader::{find, Outline, Reader};
pub use record::{Avp, Record, Records};
pub use refusal::Refusal;
pub use unit_value::UnitValue;
pub use utf8::Utf8Error;
pub use value::{kinds, Value};

/// Flags of what is wrong in a message that is accepted all the same.
pub mod error_flags {
    /// Text that is not UTF-8, or a group that its members don't fill.
    pub const DATA_VALUE: u8 = 0b0001;
    /// Data of a length that the code doesn't take.
    pub const DATA_LENGTH: u8 = 0b0010;
    /// A reserved bit of the header or an AVP is set.
    pub const NON_ZERO_RESERVED: u8 = 0b0100;
    /// A byte of padding isn't 0.
    pub const NON_ZERO_PADDING: u8 = 0b1000;
}

/// How the data of AVPs are read.
#[derive(Clone, Copy, Debug, PartialEq, Eq, Hash)]
pub enum Reading {
    /// As the Rust crate sawp-diameter does.
    Sawp,
    /// As RFC 6733 says: Destination-Realm is 283 and not 235, Class is OctetString, Enumerated is signed, an Address starts with
    /// its family, and AVPs of vendors are [`Unhandled`](Value::Unhandled).
    Rfc,
}

impl Reading {
    fn is_rfc(self) -> bool {
        self == Reading::Rfc
    }
}

/// How deep a message may be nested, and how many records may be written.
#[derive(Clone, Copy, Debug, PartialEq, Eq, Hash)]
pub struct Limits {
    /// 1 to 64, where AVPs outside of groups have depth 1; any other limit is refused.
    pub depth: usize,
    /// Only this many records of the store are used, if it holds more: it is as if the store ended there, and what is past them
    /// stays as it was lent. Where the store is large and the messages are small, this saves clearing all of it.
    pub records: usize,
}

impl Default for Limits {
    /// The greatest depth, and as many records as the store holds.
    fn default() -> Limits {
        Limits {
            depth: 64,
            records: usize::MAX,
        }
    }
}

impl Limits {
    fn cut(self, store: &mut [u8]) -> &mut [u8] {
        let room = self.records.saturating_mul(Record::SIZE);
        let used = room.min(store.len());
        &mut store[..used]
    }
}

/// A message that was accepted.
#[derive(Clone, Debug)]
pub struct Message<'a> {
    /// The header.
    pub header: Header,
    /// The [`error_flags`] of the header and all AVPs, joined.
    pub errors: u8,
    /// How many AVP headers were tried, those in groups that turned out to be broken too.
    pub tried: usize,
    /// The length of the message: the rest of the input starts there.
    pub length: usize,
    records: Records<'a>,
}

impl<'a> Message<'a> {
    fn of(answer: Answer, store: &'a [u8], reading: Reading, input: &'a [u8]) -> Message<'a> {
        Message {
            header: answer.header,
            errors: answer.errors,
            tried: answer.tried,
            length: answer.length,
            records: Records::new(&store[..answer.records * Record::SIZE], reading, input),
        }
    }

    /// The AVPs, each group before its members.
    pub fn records(&self) -> Records<'a> {
        self.records.clone()
    }

    /// The table of records, as [`write()`] takes it.
    pub fn table(&self) -> &'a [u8] {
        self.records.as_bytes()
    }
}

/// An AVP that was decoded alone, and accepted.
#[derive(Clone, Debug)]
pub struct OneAvp<'a> {
    /// The AVP's [`error_flags`], its members' joined in.
    pub errors: u8,
    /// How many AVP headers were tried, its own first.
    pub tried: usize,
    /// The AVP's size with its padding: the rest of the input starts there.
    pub length: usize,
    records: Records<'a>,
}

impl<'a> OneAvp<'a> {
    fn of(answer: Answer, store: &'a [u8], reading: Reading, input: &'a [u8]) -> OneAvp<'a> {
        OneAvp {
            errors: answer.errors,
            tried: answer.tried,
            length: answer.length,
            records: Records::new(&store[..answer.records * Record::SIZE], reading, input),
        }
    }

    /// The AVP, and if it is a group, its members after it.
    pub fn records(&self) -> Records<'a> {
        self.records.clone()
    }

    /// The table of records, as [`write()`] takes it.
    pub fn table(&self) -> &'a [u8] {
        self.records.as_bytes()
    }
}

/// Decodes the message at the front of `input` into records in `store`, which holds one for every [`Record::SIZE`] bytes.
///
/// After an acceptance every byte past the last record is 0, to the end of the store or of the records that [`Limits`] allows. After a
/// refusal the store is as it was lent.
pub fn decode<'a>(
    input: &'a [u8],
    reading: Reading,
    limits: Limits,
    store: &'a mut [u8],
) -> Result<Message<'a>, Refusal> {
    let store = limits.cut(store);
    let answer = Answer::of(ffi::message(reading.is_rfc(), limits.depth, input, store))?;
    Ok(Message::of(answer, store, reading, input))
}

/// As [`decode`], by an [`Edition`], or by the number of one from elsewhere, as a setting: it is [`BadEdition`](Refusal::BadEdition)
/// where there is none.
///
/// ```
/// use tandrekily::{decode_by, Edition, Limits, Record, Refusal, Value};
///
/// // A header, and a CC-Request-Number of 7.
/// let message = b"\x01\0\0\x20\x80\0\x01\x10\0\0\0\x04\0\0\0\0\0\0\0\0\
///     \0\0\x01\x9F\x40\0\0\x0C\0\0\0\x07";
/// let mut store = [0; 4 * Record::SIZE];
/// let decoded = decode_by(message, Edition::Rfc4006, Limits::default(), &mut store)?;
/// assert_eq!(decoded.records().next().unwrap().value(), Value::Unsigned32(7));
///
/// let refused = decode_by(message, 4007_u32, Limits::default(), &mut store);
/// assert_eq!(refused.err(), Some(Refusal::BadEdition));
/// # Ok::<(), tandrekily::Refusal>(())
/// ```
pub fn decode_by<'a>(
    input: &'a [u8],
    edition: impl Into<u32>,
    limits: Limits,
    store: &'a mut [u8],
) -> Result<Message<'a>, Refusal> {
    let store = limits.cut(store);
    let answer = Answer::of(ffi::message_by(edition.into(), limits.depth, input, store))?;
    Ok(Message::of(answer, store, Reading::Rfc, input))
}

/// Decodes the one AVP at the front of `input`, at depth 1, into records in `store`. The store is left as [`decode`] leaves it.
pub fn decode_avp<'a>(
    input: &'a [u8],
    reading: Reading,
    limits: Limits,
    store: &'a mut [u8],
) -> Result<OneAvp<'a>, Refusal> {
    let store = limits.cut(store);
    let answer = Answer::of(ffi::avp(reading.is_rfc(), limits.depth, input, store))?;
    Ok(OneAvp::of(answer, store, reading, input))
}

/// As [`decode_avp`], by an [`Edition`] or the number of one, as in [`decode_by`].
///
/// ```
/// use tandrekily::{decode_avp_by, Edition, Limits, Record, Value};
///
/// // User-Equipment-Info-Extension came with RFC 8506.
/// let avp = b"\0\0\x02\x8D\x40\0\0\x08";
/// let mut store = [0; Record::SIZE];
/// let unknown = Value::Unhandled { valid_up_to: 0 };
/// for (edition, value) in [(Edition::Rfc4006, unknown), (Edition::Rfc8506, Value::Grouped)] {
///     let decoded = decode_avp_by(avp, edition, Limits::default(), &mut store)?;
///     assert_eq!(decoded.records().next().unwrap().value(), value);
/// }
/// # Ok::<(), tandrekily::Refusal>(())
/// ```
pub fn decode_avp_by<'a>(
    input: &'a [u8],
    edition: impl Into<u32>,
    limits: Limits,
    store: &'a mut [u8],
) -> Result<OneAvp<'a>, Refusal> {
    let store = limits.cut(store);
    let answer = Answer::of(ffi::avp_by(edition.into(), limits.depth, input, store))?;
    Ok(OneAvp::of(answer, store, Reading::Rfc, input))
}

/// Reads the header at the front of `input` alone, and its [`error_flags`]. The whole message that it announces must be there.
pub fn header(input: &[u8]) -> Result<(Header, u8), Refusal> {
    let answer = Answer::of(ffi::header(input))?;
    Ok((answer.header, answer.errors))
}

/// Writes the message of a table of records to the front of `out` and returns its length.
///
/// The places of the records point into `pool`, which for a table that was decoded is the input. All lengths written are
/// computed, those of groups from their members. Bytes of `out` past the message stay, and after a refusal all of them do.
///
/// A table is a row of [`Record`]s with nothing left over, in which
///
/// - the depth is 1 to 64, that of the first record 1, and a record is deeper than the one before it only after a group, and
///   then by 1;
/// - the kind is one of [`kinds`], and the vendor is 0 without the 'V' bit;
/// - a group has no padding; its place and length are not looked at;
/// - any other AVP has a length of at least its header's size, its data are within the pool, and its padding count is what
///   fills the data to a multiple of 4, with unused padding bytes 0;
/// - the parent is the index of the last earlier record that is one less deep, and None at depth 1.
///
/// Error flags and bits are not looked at.
pub fn write(fields: Fields, table: &[u8], pool: &[u8], out: &mut [u8]) -> Result<usize, Refusal> {
    let answer = Answer::of(ffi::write(fields, table, pool, out))?;
    Ok(answer.length)
}

/// Is the text well-formed UTF-8 (RFC 3629)?
pub fn is_utf8(text: &[u8]) -> bool {
    ffi::is_utf8(text)
}

/// Is the text well-formed UTF-8 (RFC 3629), and if not, up to where? The [`Utf8Error`] says at which byte it breaks.
pub fn utf8(text: &[u8]) -> Result<(), Utf8Error> {
    let valid_up_to = ffi::utf8(text);
    if valid_up_to == text.len() {
        Ok(())
    } else {
        Err(Utf8Error { valid_up_to })
    }
}

/// A [`Time`](Value::Time) in Unix seconds. It goes on after 2036 as RFC 6733, section 4.3.1, asks (RFC 4330, section 3).
///
/// | `time` | Unix seconds | UTC |
/// |---|---|---|
/// | 0x80000000 to 0xFFFFFFFF | `time` - 2,208,988,800 | 1968-01-20 03:14:08 to 2036-02-07 06:28:15 |
/// | 0 to 0x7FFFFFFF | `time` + 2,085,978,496 | 2036-02-07 06:28:16 to 2104-02-26 09:42:23 |
///
/// 0 is a time like any other.
///
/// ```
/// use tandrekily::unix_seconds;
///
/// assert_eq!(unix_seconds(2_208_988_800), 0);
/// // March 2036 begins
/// assert_eq!(unix_seconds(1_963_904), 2_087_942_400);
/// ```
pub fn unix_seconds(time: u32) -> i64 {
    ffi::unix_seconds(time)
}
